/* The drawing reader for a host. Link with the archive that `tools/staticlib svgtree` writes.
 *
 * Every slice is a pointer and a number of elements. A slice of length 0 may have any non-null aligned pointer. Null and misaligned
 * pointers, lengths past the memory behind them, and slices that overlap where one is written to are the caller's fault. Nothing is
 * assumed of what the slices hold. The numbers are those of docs/MANUAL.md. Build and exchange take up to 352 KB of stack. */
#ifndef SVGTREE_H
#define SVGTREE_H

#include <stddef.h>
#include <stdint.h>

#ifdef __cplusplus
extern "C" {
#endif

/* How many node records, attribute entries and text bytes of the tables are taken. */
typedef struct svgtree_counts { uint32_t nodes, attributes, text; } svgtree_counts;

/* A number, 0 if nothing stands against the question; whether there is an index, 1 or 0; the index, 0 if there is none. */
typedef struct svgtree_answer { uint32_t number, found, index; } svgtree_answer;

/* What build and exchange answer: a number, 0 if the tables hold the tree, and then how much of the tables is taken; else counts of 0. */
typedef struct svgtree_built { uint32_t number, nodes, attributes, text; } svgtree_built;

/* A part of the text table: its first byte and its length. */
typedef struct svgtree_part { uint32_t start, size; } svgtree_part;

/* 0 if the drawing is accepted, else the number of the first cause. */
uint32_t svgtree_check(const uint8_t *script, size_t script_len, const uint8_t *characters, size_t characters_len);

/* The tree of the drawing in the three tables: node records of 8 words, attribute entries of 5 words, and bytes of text. What the tables
 * held before does not matter; words and bytes behind those that are taken are 0. Every refusal (1 to 9, 20 to 24) clears all three tables.
 * script and characters are only read. */
svgtree_built svgtree_build(const uint8_t *script, size_t script_len, const uint8_t *characters, size_t characters_len,
                            uint32_t *nodes, size_t nodes_len, uint32_t *attributes, size_t attributes_len,
                            uint8_t *text, size_t text_len);

/* The text with that number, counted from 1 in the script's order, becomes the bytes `new`, as many as it had, and the tables are built
 * anew. 0: characters and tables are those of the changed drawing. 1 to 9 and 30 to 33 touch neither characters nor tables; 20 to 24 leave
 * the characters as they were and clear all three tables. */
svgtree_built svgtree_exchange(const uint8_t *script, size_t script_len, uint8_t *characters, size_t characters_len, uint32_t number,
                               const uint8_t *new_bytes, size_t new_len, uint32_t *nodes, size_t nodes_len,
                               uint32_t *attributes, size_t attributes_len, uint8_t *text, size_t text_len);

/* The entry that node `node` has for the attribute code `name`: an index of the attribute table. */
svgtree_answer svgtree_attribute(const uint32_t *nodes, size_t nodes_len, const uint32_t *attributes, size_t attributes_len,
                                 const uint8_t *text, size_t text_len, const uint8_t *characters, size_t characters_len,
                                 svgtree_counts counts, uint32_t node, uint32_t name);

/* The same where the attribute may stand on an ancestor. */
svgtree_answer svgtree_find_attribute(const uint32_t *nodes, size_t nodes_len, const uint32_t *attributes, size_t attributes_len,
                                      const uint8_t *text, size_t text_len, const uint8_t *characters, size_t characters_len,
                                      svgtree_counts counts, uint32_t node, uint32_t name);

/* The last element with that id: an index of the node table. */
svgtree_answer svgtree_element_by_id(const uint32_t *nodes, size_t nodes_len, const uint32_t *attributes, size_t attributes_len,
                                     const uint8_t *text, size_t text_len, const uint8_t *characters, size_t characters_len,
                                     svgtree_counts counts, const uint8_t *id, size_t id_len);

/* The text of a node, empty where it has none, the tables are not sound or there is no such node. */
svgtree_part svgtree_text(const uint32_t *nodes, size_t nodes_len, const uint32_t *attributes, size_t attributes_len,
                          const uint8_t *text, size_t text_len, const uint8_t *characters, size_t characters_len,
                          svgtree_counts counts, uint32_t node);

#ifdef __cplusplus
}
#endif

#endif
