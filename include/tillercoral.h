/*
 * The exported calls of Tillercoral, a proved printer of Rust types and declarations.
 *
 * Link with libcapi.a, which `rt lib` in crates/capi writes to crates/capi/out. Of the C library
 * it needs memmove and memset, and nothing else. C99 or later, and C++; x86-64.
 *
 * Arguments
 *
 *   Every call takes an encoding, as three slices: words (a tree, head first), pairs (offset,
 *   length, offset, length, .. of names in the text) and text. docs/API.md lists the words. A
 *   length counts elements, not bytes; of pairs it counts the numbers, two for each pair. A pointer
 *   is aligned and not null, also where the length is 0. `out` overlaps none of the others.
 *   Whatever the slices hold, there is an answer, and nothing outside them is read or written.
 *
 * Answers
 *
 *   Below TILLERCORAL_REFUSED the call is done, and the number is what the call says below. From
 *   there on it is refused, and what is above TILLERCORAL_REFUSED says why. Refusals are tested in
 *   this order: 11, 1, 2, the first of 3, 4 and 5 that is met in the tree, 6, the same four for the
 *   rules, 10, then 7 or 8, and last the 5 of a rebuilt tree. A call gives those that it can meet.
 *
 * Buffers
 *
 *   A result fills the front of `out`, and the rest of it stays. A refusal leaves all of it as it
 *   was, with one exception: a call that rebuilds and answers 8, or 5 because the rebuilt tree is
 *   too deep, leaves all of it zero.
 *
 * Threads
 *
 *   The library keeps nothing between calls. Calls may run at the same time if none writes to what
 *   another one uses.
 */
#ifndef TILLERCORAL_H
#define TILLERCORAL_H

#include <stddef.h>
#include <stdint.h>

#ifdef __cplusplus
extern "C" {
#endif

/* Answers from this number on are refusals: 2^63. */
#define TILLERCORAL_REFUSED UINT64_C(0x8000000000000000)

/* Why a call gave no result. */
enum tillercoral_refusal {
    /* more than TILLERCORAL_WORD_LIMIT words (of the tree or of the rules), TILLERCORAL_PAIR_LIMIT
       pairs or TILLERCORAL_TEXT_LIMIT bytes */
    TILLERCORAL_OVERLONG = 1,
    /* a pair begins before the end of the one before it or ends outside the text, or half a pair
       ends the table */
    TILLERCORAL_BAD_PAIR = 2,
    /* a word is wanted and none is left */
    TILLERCORAL_ENDS_EARLY = 3,
    /* a word is none of those allowed at its place; more than TILLERCORAL_RULE_LIMIT rules are not
       allowed either */
    TILLERCORAL_UNKNOWN_WORD = 4,
    /* a type begins deeper than TILLERCORAL_DEPTH_LIMIT, or would in a rebuilt tree */
    TILLERCORAL_TOO_DEEP = 5,
    /* words remain after the tree or the rules */
    TILLERCORAL_LEFT_OVER = 6,
    /* the type has no such part */
    TILLERCORAL_NO_SUCH_PART = 7,
    /* the buffer is too short, or rebuilding needs more than TILLERCORAL_WORD_LIMIT words at some
       moment */
    TILLERCORAL_BUFFER_TOO_SHORT = 8,
    /* a file has another length than its header says; no call here reads a file */
    TILLERCORAL_BAD_FILE_LENGTH = 9,
    /* two rules replace the same type */
    TILLERCORAL_REPEATED_RULE = 10,
    /* a level above TILLERCORAL_LEVEL_LIMIT */
    TILLERCORAL_BAD_LEVEL = 11
};

#define TILLERCORAL_WORD_LIMIT 8192
#define TILLERCORAL_PAIR_LIMIT 1024
#define TILLERCORAL_TEXT_LIMIT 16384
#define TILLERCORAL_DEPTH_LIMIT 64
#define TILLERCORAL_LEVEL_LIMIT 16
#define TILLERCORAL_RULE_LIMIT 32

/* Names 0 to 15 are fixed; this is the number of the first pair. */
#define TILLERCORAL_FIRST_PAIR 16

/* 1 for a refusal, 0 for a result. */
static inline int tillercoral_is_refused(uint64_t answer)
{
    return answer >= TILLERCORAL_REFUSED;
}

/* The number of a refusal, one of enum tillercoral_refusal; 0 for a result. */
static inline int tillercoral_refusal_of(uint64_t answer)
{
    return tillercoral_is_refused(answer) ? (int)(answer - TILLERCORAL_REFUSED) : 0;
}

/* The first word of a part, counted in the caller's words. The answer is no refusal. */
static inline size_t tillercoral_part_start(uint64_t answer)
{
    return (size_t)(answer >> 16);
}

/* How many words a part has. The answer is no refusal. */
static inline size_t tillercoral_part_length(uint64_t answer)
{
    return (size_t)(answer & 0xFFFF);
}

/*
 * Text. The answer is its length in bytes; no zero byte ends it, and it need not be UTF-8 if a name
 * is not. The level is the indent in steps of four spaces, 0 to TILLERCORAL_LEVEL_LIMIT; it shows in
 * declarations only, and not before their first line, which goes where the caller has indented.
 * Refusals: 11, 1 to 6, 8; for a path never 5.
 */

/* The text of a type. */
uint64_t tillercoral_type_text(
    const uint32_t *words, size_t words_len,
    const uint32_t *pairs, size_t pairs_len,
    const uint8_t *text, size_t text_len,
    uint32_t level,
    uint8_t *out, size_t out_len);

/* The text of a path. */
uint64_t tillercoral_path_text(
    const uint32_t *words, size_t words_len,
    const uint32_t *pairs, size_t pairs_len,
    const uint8_t *text, size_t text_len,
    uint32_t level,
    uint8_t *out, size_t out_len);

/* The text of a struct, an enum, a type synonym or a use line. */
uint64_t tillercoral_declaration_text(
    const uint32_t *words, size_t words_len,
    const uint32_t *pairs, size_t pairs_len,
    const uint8_t *text, size_t text_len,
    uint32_t level,
    uint8_t *out, size_t out_len);

/*
 * Soundness. The answer is 1 if the type is sound: its text is then that of no other sound type,
 * synonyms and metadata aside. Otherwise it is 0. Refusals: 1 to 6.
 */

uint64_t tillercoral_type_is_sound(
    const uint32_t *words, size_t words_len,
    const uint32_t *pairs, size_t pairs_len,
    const uint8_t *text, size_t text_len);

/*
 * Rebuilding. The answer is the number of words written, which use the pairs and the text that were
 * given. The rules are how many there are, at most TILLERCORAL_RULE_LIMIT, then for each a type and
 * what it gives way to; they use the same pairs and text. `out` must have room for the most words
 * that lie there at one moment, which can be more than the result. More room than
 * TILLERCORAL_WORD_LIMIT words is of no use. Refusals: 1 to 6, with rules 10, then 8, then 5 for the
 * rebuilt tree.
 */

/* A type in which each type that a rule names first has given way to its second, innermost first. */
uint64_t tillercoral_type_rebuild(
    const uint32_t *words, size_t words_len,
    const uint32_t *pairs, size_t pairs_len,
    const uint8_t *text, size_t text_len,
    const uint32_t *rules, size_t rules_len,
    uint32_t *out, size_t out_len);

/* A declaration with each of its types rebuilt. */
uint64_t tillercoral_declaration_rebuild(
    const uint32_t *words, size_t words_len,
    const uint32_t *pairs, size_t pairs_len,
    const uint8_t *text, size_t text_len,
    const uint32_t *rules, size_t rules_len,
    uint32_t *out, size_t out_len);

/* The type of a value while it is being initialized: elements of an array become MaybeUninit. */
uint64_t tillercoral_type_at_initialization(
    const uint32_t *words, size_t words_len,
    const uint32_t *pairs, size_t pairs_len,
    const uint8_t *text, size_t text_len,
    uint32_t *out, size_t out_len);

/*
 * Visit lists. The answer is the number of positions written: at which words the types visited
 * begin. There are never more of them than words. Refusals: 1 to 6, 8.
 */

/* The types in a type, itself first; bases of synonyms are left out. */
uint64_t tillercoral_type_visit(
    const uint32_t *words, size_t words_len,
    const uint32_t *pairs, size_t pairs_len,
    const uint8_t *text, size_t text_len,
    uint32_t *out, size_t out_len);

/* The types in a declaration; those in the fields of a struct are left out. */
uint64_t tillercoral_declaration_visit(
    const uint32_t *words, size_t words_len,
    const uint32_t *pairs, size_t pairs_len,
    const uint8_t *text, size_t text_len,
    uint32_t *out, size_t out_len);

/*
 * Shapes of a type. The answer is 1 for yes and 0 for no. Refusals: 1 to 6.
 */

/* Its text ends with a name after which <..> may stand. */
uint64_t tillercoral_ends_with_name_that_can_accept_generics(
    const uint32_t *words, size_t words_len,
    const uint32_t *pairs, size_t pairs_len,
    const uint8_t *text, size_t text_len);

/* One of u8 .. i128 and usize, behind synonyms and metadata. */
uint64_t tillercoral_is_auto_size(
    const uint32_t *words, size_t words_len,
    const uint32_t *pairs, size_t pairs_len,
    const uint8_t *text, size_t text_len);

/* A number, bool, a Ptr, or metadata that says so; behind synonyms. */
uint64_t tillercoral_can_read_without_clone(
    const uint32_t *words, size_t words_len,
    const uint32_t *pairs, size_t pairs_len,
    const uint8_t *text, size_t text_len);

/* An Rc or an Arc behind any number of & and synonyms. */
uint64_t tillercoral_is_rc_or_borrowed_rc(
    const uint32_t *words, size_t words_len,
    const uint32_t *pairs, size_t pairs_len,
    const uint8_t *text, size_t text_len);

/* One of the runtime's arrays Array.. of one argument, behind synonyms and metadata. */
uint64_t tillercoral_is_multi_array(
    const uint32_t *words, size_t words_len,
    const uint32_t *pairs, size_t pairs_len,
    const uint8_t *text, size_t text_len);

/* A MaybeUninit of one argument. */
uint64_t tillercoral_is_maybe_uninit(
    const uint32_t *words, size_t words_len,
    const uint32_t *pairs, size_t pairs_len,
    const uint8_t *text, size_t text_len);

/* An Object or a Ptr of an array without a size whose elements are MaybeUninit. */
uint64_t tillercoral_is_uninit_array(
    const uint32_t *words, size_t words_len,
    const uint32_t *pairs, size_t pairs_len,
    const uint8_t *text, size_t text_len);

/* A Box of one argument. */
uint64_t tillercoral_is_box(
    const uint32_t *words, size_t words_len,
    const uint32_t *pairs, size_t pairs_len,
    const uint8_t *text, size_t text_len);

/* It is, or borrows, a Box, an Rc or an Arc. */
uint64_t tillercoral_needs_as_ref_for_borrow(
    const uint32_t *words, size_t words_len,
    const uint32_t *pairs, size_t pairs_len,
    const uint8_t *text, size_t text_len);

/* An Object of one argument. */
uint64_t tillercoral_is_object(
    const uint32_t *words, size_t words_len,
    const uint32_t *pairs, size_t pairs_len,
    const uint8_t *text, size_t text_len);

/* A Ptr of one argument. */
uint64_t tillercoral_is_pointer(
    const uint32_t *words, size_t words_len,
    const uint32_t *pairs, size_t pairs_len,
    const uint8_t *text, size_t text_len);

/* An Object or a Ptr, behind synonyms and metadata. */
uint64_t tillercoral_is_object_or_pointer(
    const uint32_t *words, size_t words_len,
    const uint32_t *pairs, size_t pairs_len,
    const uint8_t *text, size_t text_len);

/* The runtime's Set, Sequence, Multiset or Map, behind synonyms and metadata. */
uint64_t tillercoral_is_builtin_collection(
    const uint32_t *words, size_t words_len,
    const uint32_t *pairs, size_t pairs_len,
    const uint8_t *text, size_t text_len);

/* An Rc or an Arc of one argument. */
uint64_t tillercoral_is_rc(
    const uint32_t *words, size_t words_len,
    const uint32_t *pairs, size_t pairs_len,
    const uint8_t *text, size_t text_len);

/* A Box of a dyn. */
uint64_t tillercoral_is_box_dyn(
    const uint32_t *words, size_t words_len,
    const uint32_t *pairs, size_t pairs_len,
    const uint8_t *text, size_t text_len);

/*
 * Parts of a type. The answer is where in the caller's words the part stands, start * 65536 and the
 * length: see tillercoral_part_start and tillercoral_part_length. Refusals: 1 to 6, and 7 if the
 * type has no such part, which the first three never give.
 */

/* The type without the synonyms and metadata around it, by what is printed. */
uint64_t tillercoral_remove_synonyms(
    const uint32_t *words, size_t words_len,
    const uint32_t *pairs, size_t pairs_len,
    const uint8_t *text, size_t text_len);

/* The type without the synonyms and metadata around it, by what it stands for. */
uint64_t tillercoral_expand(
    const uint32_t *words, size_t words_len,
    const uint32_t *pairs, size_t pairs_len,
    const uint8_t *text, size_t text_len);

/* What a & or a &mut borrows, and otherwise the type itself. */
uint64_t tillercoral_to_owned(
    const uint32_t *words, size_t words_len,
    const uint32_t *pairs, size_t pairs_len,
    const uint8_t *text, size_t text_len);

/* The argument of a type that tillercoral_is_multi_array says yes to. */
uint64_t tillercoral_multi_array_underlying(
    const uint32_t *words, size_t words_len,
    const uint32_t *pairs, size_t pairs_len,
    const uint8_t *text, size_t text_len);

/* The argument of a type that tillercoral_is_box says yes to. */
uint64_t tillercoral_box_underlying(
    const uint32_t *words, size_t words_len,
    const uint32_t *pairs, size_t pairs_len,
    const uint8_t *text, size_t text_len);

/* The argument of a type that tillercoral_is_object_or_pointer says yes to. */
uint64_t tillercoral_object_or_pointer_underlying(
    const uint32_t *words, size_t words_len,
    const uint32_t *pairs, size_t pairs_len,
    const uint8_t *text, size_t text_len);

/* The argument of a type that tillercoral_is_rc says yes to. */
uint64_t tillercoral_rc_underlying(
    const uint32_t *words, size_t words_len,
    const uint32_t *pairs, size_t pairs_len,
    const uint8_t *text, size_t text_len);

/* What stands behind the dyn of a type that tillercoral_is_box_dyn says yes to. */
uint64_t tillercoral_box_dyn_underlying(
    const uint32_t *words, size_t words_len,
    const uint32_t *pairs, size_t pairs_len,
    const uint8_t *text, size_t text_len);

/* The argument of a collection, of a Map the second. */
uint64_t tillercoral_get_builtin_collection_element(
    const uint32_t *words, size_t words_len,
    const uint32_t *pairs, size_t pairs_len,
    const uint8_t *text, size_t text_len);

/* The argument of a MaybePlacebo. */
uint64_t tillercoral_extract_maybe_placebo(
    const uint32_t *words, size_t words_len,
    const uint32_t *pairs, size_t pairs_len,
    const uint8_t *text, size_t text_len);

/* What the MaybeUninit holds that the elements of an array in an Object or a Ptr are. */
uint64_t tillercoral_extract_maybe_uninit_array_element(
    const uint32_t *words, size_t words_len,
    const uint32_t *pairs, size_t pairs_len,
    const uint8_t *text, size_t text_len);

#ifdef __cplusplus
}
#endif

#endif
