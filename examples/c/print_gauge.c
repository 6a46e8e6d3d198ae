/*
 * Prints a declaration, and makes every other call once.
 *
 *   (cd crates/capi && rt lib)
 *   cc -std=c99 -Iinclude examples/c/print_gauge.c crates/capi/out/libcapi.a -o print_gauge
 *   ./print_gauge
 *
 * It prints what stands in print_gauge.txt.
 */
#include <stdio.h>
#include <stdlib.h>

#include "tillercoral.h"

#define COUNT(array) (sizeof(array) / sizeof((array)[0]))

/* The names of all encodings here: 16 is Gauge, 17 the doc, 18 mm, 19 id. */
static const uint32_t pairs[] = {0, 5, 5, 13, 18, 2, 20, 2};
static const uint8_t text[] = "GaugeOffset in mm.mmid";

/* The arguments that say which encoding; the zero that ends the text in C is not part of it. */
#define ENCODING(words, words_len) words, words_len, pairs, COUNT(pairs), text, sizeof text - 1

/* A struct with a doc and two fields, pub mm: i32 and id: &u8. */
static const uint32_t gauge[] = {25, 17, 0, 16, 0, 0, 2, 0, 18, 7, 1, 19, 15, 0};
/* ::std::rc::Rc */
static const uint32_t rc_path[] = {0, 3, 1, 2, 3};
/* &::std::rc::Rc<Gauge> */
static const uint32_t shared[] = {15, 14, 1, 13, 0, 3, 1, 2, 3, 12, 16};
/* ::dafny_runtime::Ptr<[u8]> */
static const uint32_t pointer[] = {14, 1, 13, 0, 2, 10, 12, 22, 0, 0};

/* A call that takes a type and no buffer. */
typedef uint64_t type_call(
    const uint32_t *words, size_t words_len,
    const uint32_t *pairs, size_t pairs_len,
    const uint8_t *text, size_t text_len);

struct named_call {
    const char *name;
    type_call *call;
};

static const struct named_call shapes[] = {
    {"is sound", tillercoral_type_is_sound},
    {"ends with a name", tillercoral_ends_with_name_that_can_accept_generics},
    {"is auto size", tillercoral_is_auto_size},
    {"can be read without clone", tillercoral_can_read_without_clone},
    {"is an Rc or a borrowed Rc", tillercoral_is_rc_or_borrowed_rc},
    {"is a multi-array", tillercoral_is_multi_array},
    {"is MaybeUninit", tillercoral_is_maybe_uninit},
    {"is an uninit array", tillercoral_is_uninit_array},
    {"is a Box", tillercoral_is_box},
    {"needs as_ref for borrow", tillercoral_needs_as_ref_for_borrow},
    {"is an Object", tillercoral_is_object},
    {"is a Ptr", tillercoral_is_pointer},
    {"is an Object or a Ptr", tillercoral_is_object_or_pointer},
    {"is a collection", tillercoral_is_builtin_collection},
    {"is an Rc", tillercoral_is_rc},
    {"is a Box of a dyn", tillercoral_is_box_dyn},
};

static const struct named_call parts[] = {
    {"without synonyms", tillercoral_remove_synonyms},
    {"expanded", tillercoral_expand},
    {"owned", tillercoral_to_owned},
    {"in the multi-array", tillercoral_multi_array_underlying},
    {"in the Box", tillercoral_box_underlying},
    {"in the Object or Ptr", tillercoral_object_or_pointer_underlying},
    {"in the Rc", tillercoral_rc_underlying},
    {"behind the dyn", tillercoral_box_dyn_underlying},
    {"in the collection", tillercoral_get_builtin_collection_element},
    {"in the MaybePlacebo", tillercoral_extract_maybe_placebo},
    {"in the uninit array", tillercoral_extract_maybe_uninit_array_element},
};

/* The answer of a call that is not to be refused. */
static size_t result(uint64_t answer)
{
    if (tillercoral_is_refused(answer)) {
        fprintf(stderr, "refused: %d\n", tillercoral_refusal_of(answer));
        exit(EXIT_FAILURE);
    }
    return (size_t)answer;
}

static void print_type(const uint32_t *words, size_t words_len)
{
    uint8_t out[256];
    size_t length = result(tillercoral_type_text(ENCODING(words, words_len), 0, out, sizeof out));
    fwrite(out, 1, length, stdout);
    putchar('\n');
}

static void print_declaration(const uint32_t *words, size_t words_len)
{
    uint8_t out[256];
    size_t length =
        result(tillercoral_declaration_text(ENCODING(words, words_len), 0, out, sizeof out));
    fwrite(out, 1, length, stdout);
    putchar('\n');
}

static void print_path(void)
{
    uint8_t out[256];
    size_t length = result(
        tillercoral_path_text(ENCODING(rc_path, COUNT(rc_path)), 0, out, sizeof out));
    fwrite(out, 1, length, stdout);
    putchar('\n');
}

static void print_positions(const char *what, const uint32_t *positions, size_t count)
{
    size_t i;
    printf("%s: %lu", what, (unsigned long)count);
    for (i = 0; i < count; i++) {
        printf(" %lu", (unsigned long)positions[i]);
    }
    putchar('\n');
}

static void print_shapes(void)
{
    size_t i;
    for (i = 0; i < COUNT(shapes); i++) {
        size_t yes = result(shapes[i].call(ENCODING(shared, COUNT(shared))));
        printf("%s: %s\n", shapes[i].name, yes ? "yes" : "no");
    }
}

static void print_parts(void)
{
    size_t i;
    for (i = 0; i < COUNT(parts); i++) {
        uint64_t answer = parts[i].call(ENCODING(shared, COUNT(shared)));
        printf("%s: ", parts[i].name);
        if (tillercoral_refusal_of(answer) == TILLERCORAL_NO_SUCH_PART) {
            puts("nothing");
        } else {
            result(answer);
            print_type(shared + tillercoral_part_start(answer), tillercoral_part_length(answer));
        }
    }
}

static void print_rebuilt(void)
{
    /* one rule each: Gauge by u16, and i32 by i64 */
    static const uint32_t gauge_by_u16[] = {1, 12, 16, 1};
    static const uint32_t i32_by_i64[] = {1, 7, 8};
    uint32_t out[64];
    size_t length;

    length = result(tillercoral_type_rebuild(
        ENCODING(shared, COUNT(shared)), gauge_by_u16, COUNT(gauge_by_u16), out, COUNT(out)));
    print_type(out, length);
    length = result(tillercoral_declaration_rebuild(
        ENCODING(gauge, COUNT(gauge)), i32_by_i64, COUNT(i32_by_i64), out, COUNT(out)));
    print_declaration(out, length);
    length = result(tillercoral_type_at_initialization(
        ENCODING(pointer, COUNT(pointer)), out, COUNT(out)));
    print_type(out, length);
}

static void print_visits(void)
{
    uint32_t out[64];
    size_t count;

    count = result(tillercoral_type_visit(ENCODING(shared, COUNT(shared)), out, COUNT(out)));
    print_positions("types in the type", out, count);
    count = result(tillercoral_declaration_visit(ENCODING(gauge, COUNT(gauge)), out, COUNT(out)));
    print_positions("types visited in the struct", out, count);
}

static void print_refusal(void)
{
    uint8_t out[8];
    uint64_t answer =
        tillercoral_type_text(ENCODING(shared, COUNT(shared)), 0, out, sizeof out);
    if (tillercoral_refusal_of(answer) == TILLERCORAL_BUFFER_TOO_SHORT) {
        puts("8 bytes are too short");
    }
}

int main(void)
{
    print_declaration(gauge, COUNT(gauge));
    print_path();
    print_type(shared, COUNT(shared));
    print_shapes();
    print_parts();
    print_rebuilt();
    print_visits();
    print_refusal();
    return EXIT_SUCCESS;
}
