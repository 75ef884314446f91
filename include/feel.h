/* The type layer of FEEL over the byte form of pass booking records.
 *
 * ANSWERS. Every function answers one uint64_t.
 *   high word 0   the answer stands in the low word: 0 no, 1 yes, a count, a level, a length written,
 *                 the command of a type, or place * 65536 + length of a part found
 *   high word 1   refused: the number in the low word says why
 *   high word 2   none, or unknown
 *
 * WHAT A CALLER OWES AT THE BOUNDARY. A slice is a pointer and a length in elements. The pointer is
 * valid for that many elements, also where the length is 0 (it is then not read, and must not be null).
 * Nothing else changes the bytes during the call. Scratch and output overlap no other argument. Nothing has to
 * be checked beforehand: every length and every content has an answer or a refusal.
 *
 * REFUSALS. The first one that applies is given, and the output is then untouched. Arguments are
 * checked in the order of the parameters; inside one argument the length, then the first fault from the
 * left, bytes left over last.
 *    1  value: no bytes, or more than 16,384
 *    2  value: ends inside, unknown command, or an operand outside its list
 *    3  value: names not strictly ascending
 *    4  value: level over 31
 *    5  value: bytes left over
 *    6  type: no bytes, or more than 16,384
 *    7  type: ends inside, or unknown command
 *    8  type: names not strictly ascending
 *    9  type: level over 32
 *   10  type: bytes left over
 *   11  path: more than 31 names
 *   12  a context is wanted, and the value is none
 *   13  least type asked of a value that holds a function, a built-in, a type or an irrelevant mark
 *       (the strict call: a built-in, a type or an irrelevant mark; a function definition has its function type)
 *   14  scratch too short
 *   15  the value cannot be retrieved with the type
 *   16  a value on the way of the path is no context
 *   17  the result would have more than 16,384 bytes or a level over 31
 *   18  output too short for the answer
 *   19  texts: table or parts malformed, or with bytes left over
 *   20  texts: a name's number is not in the table
 *   26  table: not a hundred bytes 0 or 1
 *   27  table: no order of the simple types from Null up to Any
 *       (a type does not conform to itself, Null not to all or not all to Any, two types conform mutually, or conformance does not
 *       carry through a third type)
 *   28  table: two types lack a least common supertype
 */
#ifndef FEEL_H
#define FEEL_H

#include <stddef.h>
#include <stdint.h>

#ifdef __cplusplus
extern "C" {
#endif

/* Reads a value. Command 0x10 is a decimal number: a signed 64-bit coefficient, little endian, and an exponent byte p, 0 to 18 or it is
 * refused 2; it means coefficient / 10^p. Answers the value's level, 1 to 31, or refusal 1 to 5. */
uint64_t feel_check_value(const uint8_t *v, size_t v_len);

/* Reads a type. Answers its level, 1 to 32, or refusal 6 to 10. */
uint64_t feel_check_type(const uint8_t *t, size_t t_len);

/* FeelType::is_conformant: does the type a conform to the type b? Answers 1 or 0, or a's refusal 6 to 10, or b's. */
uint64_t feel_type_is_conformant(const uint8_t *a, size_t a_len, const uint8_t *b, size_t b_len);

/* FeelType::instance_of: is the type a an instance of the type b? Answers 1 or 0, or a's refusal 6 to 10, or b's. */
uint64_t feel_type_instance_of(const uint8_t *a, size_t a_len, const uint8_t *b, size_t b_len);

/* The least type to which both conform, reduced, at the front of out. Answers its length, or a's refusal 6 to 10, or b's; 14 where the
 * scratch is shorter than a and b together; 18. The scratch's contents afterwards are free. */
uint64_t feel_type_common_supertype(const uint8_t *a, size_t a_len, const uint8_t *b, size_t b_len,
                                    uint8_t *scratch, size_t scratch_len, uint8_t *out, size_t out_len);

/* The greatest type that conforms to both, reduced, at the front of out. Answers and refusals as above. */
uint64_t feel_type_common_subtype(const uint8_t *a, size_t a_len, const uint8_t *b, size_t b_len,
                                  uint8_t *scratch, size_t scratch_len, uint8_t *out, size_t out_len);

/* The reduced form of the type t, at the front of out: the result of every function without parameters becomes Any. Answers its length, or
 * refusal 6 to 10, or 18. */
uint64_t feel_type_reduced(const uint8_t *t, size_t t_len, uint8_t *out, size_t out_len);

/* FeelType::is_simple_built_in_type: is t one of the ten simple types? Answers 1 or 0, or refusal 6 to 10. */
uint64_t feel_type_is_simple_built_in_type(const uint8_t *t, size_t t_len);

/* FeelType::is_null: is t the type Null? Answers 1 or 0, or refusal 6 to 10. */
uint64_t feel_type_is_null(const uint8_t *t, size_t t_len);

/* Value::is_conformant: does the value v conform to the type t? Answers 1 or 0, or v's refusal 1 to 5, or t's 6 to 10. */
uint64_t feel_value_is_conformant(const uint8_t *v, size_t v_len, const uint8_t *t, size_t t_len);

/* The least type of a data value, at the front of out. Answers its length, or refusal 1 to 5; 13; 14 where the scratch is shorter than four
 * times v; 18. The scratch's contents afterwards are free. */
uint64_t feel_value_least_type(const uint8_t *v, size_t v_len, uint8_t *scratch, size_t scratch_len, uint8_t *out, size_t out_len);

/* Value::type_of, the type as the Rust infers it, at the front of out. Answers its length, or refusal 1 to 5, 14 as above, 18. */
uint64_t feel_value_type_of(const uint8_t *v, size_t v_len, uint8_t *scratch, size_t scratch_len, uint8_t *out, size_t out_len);

/* FeelType::get_value_checked: the value v retrieved by the type t, at the front of out. Answers its length, or t's refusal 6 to 10, or v's 1
 * to 5; 15; 18. (17 is never met.) */
uint64_t feel_type_get_value_checked(const uint8_t *t, size_t t_len, const uint8_t *v, size_t v_len, uint8_t *out, size_t out_len);

/* FeelType::get_conformant_value: v retrieved by t where it conforms, otherwise null with trace 2; null with trace 0 by the type Null. Answers
 * its length, or t's refusal 6 to 10, or v's 1 to 5; 18. */
uint64_t feel_type_get_conformant_value(const uint8_t *t, size_t t_len, const uint8_t *v, size_t v_len, uint8_t *out, size_t out_len);

/* Value::coerced: v coerced to the type t, at the front of out; null with trace 1 where no rule applies. Answers its length, or v's refusal 1
 * to 5, or t's 6 to 10; 17; 18. */
uint64_t feel_value_coerced(const uint8_t *v, size_t v_len, const uint8_t *t, size_t t_len, uint8_t *out, size_t out_len);

/* Value::is_invalid_coercion (null with trace 1), is_valid_range, is_null, is_true, is_false, is_number, is_string, is_list, is_range.
 * is_number says yes to the commands 0x02 and 0x10. is_valid_range compares numbers of both commands with each other by exact value.
 * Answer 1 or 0, or refusal 1 to 5. */
uint64_t feel_value_is_invalid_coercion(const uint8_t *v, size_t v_len);
uint64_t feel_value_is_valid_range(const uint8_t *v, size_t v_len);
uint64_t feel_value_is_null(const uint8_t *v, size_t v_len);
uint64_t feel_value_is_true(const uint8_t *v, size_t v_len);
uint64_t feel_value_is_false(const uint8_t *v, size_t v_len);
uint64_t feel_value_is_number(const uint8_t *v, size_t v_len);
uint64_t feel_value_is_string(const uint8_t *v, size_t v_len);
uint64_t feel_value_is_list(const uint8_t *v, size_t v_len);
uint64_t feel_value_is_range(const uint8_t *v, size_t v_len);

/* IntervalType::opened, closed, undefined of an interval byte. Answer 1 or 0, or 2 for a byte over 3. */
uint64_t feel_interval_opened(uint8_t i);
uint64_t feel_interval_closed(uint8_t i);
uint64_t feel_interval_undefined(uint8_t i);

/* Bif::feel_type of the built-in function at position b, at the front of out. Answers its length, or 2 for a position over 85, or 18. */
uint64_t feel_bif_feel_type(uint8_t b, uint8_t *out, size_t out_len);

/* CONTEXTS. A path is a slice of 16-bit names, path_len of them, the outermost first. A part is the whole value found, as a part of the
 * caller's own bytes c: its place from the start of c and its length. An update leaves c as it is and writes the context after the update
 * at the front of out. */

/* FeelContext::get_entry: the value of the entry with this name. Answers the part, or none, or refusal 1 to 5, or 12. */
uint64_t feel_context_get_entry(const uint8_t *c, size_t c_len, uint16_t name);

/* FeelContext::search_deep: the value at the path. Answers the part, or none, also for an empty path; or c's refusal 1 to 5; 11; 12. */
uint64_t feel_context_search_deep(const uint8_t *c, size_t c_len, const uint16_t *path, size_t path_len);

/* FeelContext::get_first: the value of the first entry. Answers the part, or none where there is no entry; or refusal 1 to 5, or 12. */
uint64_t feel_context_get_first(const uint8_t *c, size_t c_len);

/* FeelContext::contains_entry: is there an entry with this name? Answers 1 or 0, or refusal 1 to 5, or 12. */
uint64_t feel_context_contains_entry(const uint8_t *c, size_t c_len, uint16_t name);

/* FeelContext::contains_deep: is there a value at the path? No for an empty path. Answers 1 or 0, or c's refusal 1 to 5; 11; 12. */
uint64_t feel_context_contains_deep(const uint8_t *c, size_t c_len, const uint16_t *path, size_t path_len);

/* FeelContext::is_context: is there an entry with this name, and is its value a context? Answers 1 or 0, or refusal 1 to 5, or 12. */
uint64_t feel_context_is_context(const uint8_t *c, size_t c_len, uint16_t name);

/* FeelContext::is_empty: is there no entry? Answers 1 or 0, or refusal 1 to 5, or 12. */
uint64_t feel_context_is_empty(const uint8_t *c, size_t c_len);

/* FeelContext::len. Answers how many entries there are, or refusal 1 to 5, or 12. */
uint64_t feel_context_len(const uint8_t *c, size_t c_len);

/* FeelContext::create_entries: c with the value v at the path, at the front of out; a value on the way that is no context is replaced by a
 * new context, an empty path copies c. Answers its length, or c's refusal 1 to 5; 11; v's 1 to 5; 12; 17; 18. */
uint64_t feel_context_create_entries(const uint8_t *c, size_t c_len, const uint16_t *path, size_t path_len, const uint8_t *v, size_t v_len,
                                     uint8_t *out, size_t out_len);

/* FeelContext::apply_entries: the same, but 16 where a value on the way is no context. Answers its length, or c's refusal 1 to 5; 11; v's 1
 * to 5; 12; 16; 17; 18. */
uint64_t feel_context_apply_entries(const uint8_t *c, size_t c_len, const uint16_t *path, size_t path_len, const uint8_t *v, size_t v_len,
                                    uint8_t *out, size_t out_len);

/* FeelContext::zip: c with all entries of the other context, which replace those of equal names, at the front of out. Answers its length, or
 * c's refusal 1 to 5, or the other's; 12 where either is no context; 17; 18. */
uint64_t feel_context_zip(const uint8_t *c, size_t c_len, const uint8_t *other, size_t other_len, uint8_t *out, size_t out_len);

/* FeelContext::overwrite: c with those entries of the other context whose names it has, at the front of out. Answers and refusals as above. */
uint64_t feel_context_overwrite(const uint8_t *c, size_t c_len, const uint8_t *other, size_t other_len, uint8_t *out, size_t out_len);

/* FeelContext::move_entry: c without the entry of this name, and with its value created at the path of parent and name, at the front of out;
 * an absent name copies c. Answers its length, or refusal 1 to 5; 12; 17; 18. */
uint64_t feel_context_move_entry(const uint8_t *c, size_t c_len, uint16_t name, uint16_t parent, uint8_t *out, size_t out_len);

/* FeelContext::set_entry: c with the value v under this name, at the front of out. Answers its length, or c's refusal 1 to 5, or v's; 12; 17;
 * 18. */
uint64_t feel_context_set_entry(const uint8_t *c, size_t c_len, uint16_t name, const uint8_t *v, size_t v_len, uint8_t *out, size_t out_len);

/* FeelContext::remove_entry: c without the entry of this name, at the front of out; an absent name copies c. Answers its length, or refusal 1
 * to 5; 12; 18. (17 is never met.) */
uint64_t feel_context_remove_entry(const uint8_t *c, size_t c_len, uint16_t name, uint8_t *out, size_t out_len);

/* FeelContext::set_null: c with null of trace 0 under this name, at the front of out. Answers its length, or refusal 1 to 5; 12; 17; 18. */
uint64_t feel_context_set_null(const uint8_t *c, size_t c_len, uint16_t name, uint8_t *out, size_t out_len);

/* TEXTS. A table gives the names of a type their texts: a 16-bit count, then for each text a length byte and as many bytes 20 to 7E, neither
 * the first nor the last of them 20; the texts ascend strictly by their bytes and are numbered from 0. The parts of a name are a count byte,
 * then for each part a length byte and as many bytes 00 to 7F. Either has at most 16,384 bytes with nothing left over; what has not this form
 * is refused 19, and so is a name of more than 16,384 bytes to trim. Blanks are the bytes 09 to 0D and 20. */

/* Display of FeelType: the text of the type t with the names that the table gives, at the front of out. Answers its length, or t's refusal 6 to
 * 10; 19; 20 where the table does not have the number of a name; 18. 20 is given before 18. */
uint64_t feel_names_display(const uint8_t *t, size_t t_len, const uint8_t *table, size_t table_len, uint8_t *out, size_t out_len);

/* FeelType::from_str: the type with the name s, which is compared byte for byte and not trimmed. Answers its command, 0x20 to 0x29, or unknown
 * for every other string. Refuses nothing. */
uint64_t feel_names_from_str(const uint8_t *s, size_t s_len);

/* is_built_in_type_name: is s the name of one of the ten simple types? Answers 1 or 0. Refuses nothing. */
uint64_t feel_names_is_built_in_type_name(const uint8_t *s, size_t s_len);

/* Name::new: the name made of the parts, each without the blanks at its ends, at the front of out. Answers its length, or 19; 18. */
uint64_t feel_names_name_new(const uint8_t *parts, size_t parts_len, uint8_t *out, size_t out_len);

/* Name::from: s without the blanks at both its ends, at the front of out; s has any bytes. Answers the length, or 19 where s has more than 16,384
 * bytes; 18. */
uint64_t feel_names_trim(const uint8_t *s, size_t s_len, uint8_t *out, size_t out_len);

/* STRICT READING. The five calls below read functions as DMN does: a function without parameters conforms only if its result does, at every depth,
 * and a function definition (command 0x0C) conforms exactly when its function type does (0x2D, its count, its parameter types in order, its
 * result type). All else is as in the calls above: order of arguments, refusals, scratch. Two types that strictly conform to each other are equal
 * bytes. */

/* Does the type a strictly conform to the type b? Answers 1 or 0, or a's refusal 6 to 10, or b's. */
uint64_t feel_strict_type_is_conformant(const uint8_t *a, size_t a_len, const uint8_t *b, size_t b_len);

/* The least type to which both strictly conform, at the front of out. Functions of equal count, 0 too, have the supertype of their results, and
 * nothing is reduced: Null with a type gives that type as it is. Answers its length, or a's refusal 6 to 10, or b's; 14 where the scratch is
 * shorter than a and b together; 18. The scratch's contents afterwards are free. */
uint64_t feel_strict_type_common_supertype(const uint8_t *a, size_t a_len, const uint8_t *b, size_t b_len,
                                           uint8_t *scratch, size_t scratch_len, uint8_t *out, size_t out_len);

/* The greatest type that strictly conforms to both, at the front of out. Nothing is reduced: Any with a type gives that type as it is, and so does
 * an entry whose name only one context has. Answers and refusals as above. */
uint64_t feel_strict_type_common_subtype(const uint8_t *a, size_t a_len, const uint8_t *b, size_t b_len,
                                         uint8_t *scratch, size_t scratch_len, uint8_t *out, size_t out_len);

/* Does the value v strictly conform to the type t? The parameters of a function definition are compared as those of its function type: the other way
 * round than in feel_value_is_conformant. A built-in function, a type and an irrelevant mark conform to Any alone. Answers 1 or 0, or v's refusal
 * 1 to 5, or t's 6 to 10. */
uint64_t feel_strict_value_is_conformant(const uint8_t *v, size_t v_len, const uint8_t *t, size_t t_len);

/* The least type of a value of data and function definitions, at the front of out: v strictly conforms to a type exactly when it does. A function
 * definition has its function type as it is; lists and ranges have the strict supertype. Answers its length, or refusal 1 to 5; 13 where a built-in
 * function, a type or an irrelevant mark stands anywhere in v; 14 where the scratch is shorter than four times v; 18. The scratch's contents
 * afterwards are free. */
uint64_t feel_strict_value_least_type(const uint8_t *v, size_t v_len, uint8_t *scratch, size_t scratch_len, uint8_t *out, size_t out_len);

/* TABLES OF SIMPLE TYPES. The calls below take the relation among the ten simple types from a table: a hundred bytes 0 or 1, row conforms to column, in
 * the order of the commands 0x20 to 0x29, so that byte 10 * (a - 0x20) + (b - 0x20) says whether the type a conforms to the type b. The table is the
 * first argument and is refused before any other is looked at: 26; 27; 28. List, range, context and function types meet a simple type only at Any, and Null
 * only from below. All else is as in the calls without a table, the strict ones left aside: functions without parameters do not compare their results, answers
 * are reduced, order of arguments, refusals, scratch. Over the fixed relation's table (Null to all, all to Any, each to itself) a call answers as the one without. */

/* Does the table load? Answers 1, or refusal 26, 27 or 28. */
uint64_t feel_table_check(const uint8_t *table, size_t table_len);

/* Does the type a conform to the type b over the table? Answers 1 or 0, or the table's refusal 26 to 28, or a's 6 to 10, or b's. */
uint64_t feel_table_type_is_conformant(const uint8_t *table, size_t table_len, const uint8_t *a, size_t a_len, const uint8_t *b, size_t b_len);

/* The least type to which both conform over the table, reduced, at the front of out. Two simple types have their least common supertype in the table.
 * Answers its length, or the table's refusal 26 to 28, or a's 6 to 10, or b's; 14 where the scratch is shorter than a and b together; 18. The scratch's
 * contents afterwards are free. */
uint64_t feel_table_type_common_supertype(const uint8_t *table, size_t table_len, const uint8_t *a, size_t a_len, const uint8_t *b, size_t b_len,
                                          uint8_t *scratch, size_t scratch_len, uint8_t *out, size_t out_len);

/* The greatest type that conforms to both over the table, reduced, at the front of out. Two simple types have their greatest common subtype in the
 * table. Answers and refusals as above. */
uint64_t feel_table_type_common_subtype(const uint8_t *table, size_t table_len, const uint8_t *a, size_t a_len, const uint8_t *b, size_t b_len,
                                        uint8_t *scratch, size_t scratch_len, uint8_t *out, size_t out_len);

/* Does the value v conform to the type t over the table? A value of a simple kind conforms to whatever its type does. Answers 1 or 0, or the table's refusal
 * 26 to 28, or v's 1 to 5, or t's 6 to 10. */
uint64_t feel_table_value_is_conformant(const uint8_t *table, size_t table_len, const uint8_t *v, size_t v_len, const uint8_t *t, size_t t_len);

/* The least type of a data value over the table, at the front of out: v conforms to a type over the table exactly when it does. Answers its length, or the
 * table's refusal 26 to 28, or v's 1 to 5; 13 where a function definition, a built-in function, a type or an irrelevant mark stands anywhere in v; 14 where
 * the scratch is shorter than four times v; 18. The scratch's contents afterwards are free. */
uint64_t feel_table_value_least_type(const uint8_t *table, size_t table_len, const uint8_t *v, size_t v_len, uint8_t *scratch, size_t scratch_len,
                                     uint8_t *out, size_t out_len);

#ifdef __cplusplus
}
#endif

#endif
