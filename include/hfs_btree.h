/*
 * A proved reader of the extents overflow file of an HFS or HFS Plus volume, and of the catalog of an
 * HFS volume; from a block of a file to the block of the volume, by both; and a proved writer of a fresh
 * extents overflow file of HFS.
 *
 * Any bytes are an image, and nobody has to have checked them first. An image is only read, and so is a
 * row; `target` is written, and only by hfs_write_tree. No call allocates, keeps anything or fails: each
 * answers by a number and a place, and writes every element of `out` and `data`, whatever the answer.
 * `image`, `keys`, `results`, `name`, `work`, `out` and `data` do not overlap, and none is NULL, not even
 * an empty image, an empty name, no keys or no working bytes; the same goes for the two images and their
 * working bytes that hfs_block takes, and for `row`, `target` and `out` of hfs_write_tree.
 *
 * hfs_check, hfs_lookup, hfs_lookup_many and hfs_salvage read the extents overflow file of HFS. The calls
 * with hfs_extents_ in their names read that of the edition and the node size that the caller says:
 * HFS_EDITION_HFS with nodes of 512 bytes, or HFS_EDITION_HFS_PLUS with 512, 1,024, 2,048, 4,096, 8,192,
 * 16,384 or 32,768. Anything else is 25, before any other test. The calls with hfs_catalog_ in their
 * names read the catalog of HFS, with nodes of 512 bytes. hfs_block reads the catalog and the extents
 * overflow file of one HFS volume. hfs_write_tree writes an extents overflow file of HFS.
 *
 * A check and the lookups work in bytes that the caller lends, with any contents: one bit for each node
 * of the image, so HFS_WORK_BYTES(len) of them, or HFS_EXTENTS_WORK_BYTES(len, node_size), at most
 * HFS_MOST_WORK_BYTES for any image that is not refused by its length. What a call leaves there
 * (hfs_block, which has two images, says it below):
 *
 *  25, 11, 15, 1, 16  all bytes as they were
 *  2 to 10            the needed bytes zero
 *  0, 12              in the needed bytes the bits of the nodes in use are set and no others: node n
 *                     has bit 7 - n % 8 of byte n / 8, so the top bit of a byte comes first
 *  always             the bytes beyond the needed ones as they were
 *
 * A place is a node and a byte offset in it.
 *
 *  No.  Meaning                                    Node and offset
 *   0   sound; or all keys looked up; or written   0, 0
 *   0   found                                      the node, where the record starts
 *   1   length: not 1 to 65,536 whole nodes, of    0, 0
 *       512 bytes or of the node size said
 *   2   header node                                0, 0
 *   3   map chain                                  the node at fault, 0; for a link out of range or
 *                                                  to a node already in the chain, the node that has
 *                                                  the link; for too few bits, the chain's last node
 *   4   child number is 0, out of range, in the    the parent, the child number in it; for the root
 *       map chain or already met                   0, 16: the header's root field
 *   5   kind, level, reserved, count, offsets,     the node, 0
 *       key length or fork byte; in a catalog
 *       key or name length, type, or a record
 *       into the offset words
 *   6   key order, bounds along the path, or a     the node, where the first record starts whose key
 *       pointer key that is not its child's first  is at fault; for a pointer key the child, 14
 *   7   links                                      the node with the wrong link, 0 forward, 4 back
 *   8   leaf records, first or last leaf           0, 0
 *   9   map bits                                   the node of the map record that has the lowest
 *                                                  wrong bit, the byte that has it
 *  10   free count                                 0, 0
 *  11   asked key has a fork byte other than       0, 0
 *       00 or FF; of a catalog a name of more
 *       than 31 bytes
 *  12   absent                                     last node read, 0; 0, 0 at depth 0
 *  13   seen                                       the node, where the record starts
 *  14   not seen                                   0, 0
 *  15   fewer results than keys                    0, 0
 *  16   fewer working bytes than the nodes need    0, 0
 *  17   no record covers the block of the file     0, 0
 *  18   the volume block is above 65,535           0, 0
 *  19   a row not of whole records, or with a      0, 0
 *       wrong length byte or fork byte, or with
 *       keys that do not strictly ascend
 *  20   more nodes wanted than the target has      0, 0
 *  24   under the catalog key stands no file       0, 0
 *  25   an edition, or a node size of it, that     0, 0
 *       is not listed above
 *
 * Nodes count from 0, offsets from the node's start. Record r of a leaf starts at 14 + 20 r in HFS and
 * at 14 + 76 r in HFS Plus; in a catalog, whose records differ in length, where offset word r says.
 * Levels count from the leaves: leaves are the nodes of level 1, each child's
 * level is one less than its parent's, and the root's is the depth. Of several faults the first in the
 * order of tests is the answer: 25, 11 or 15, 1, 16, then 2 to 10; of two images the catalog's first; of a
 * row and its target 1, 19, 20.
 */
#ifndef HFS_BTREE_H
#define HFS_BTREE_H

#include <stddef.h>
#include <stdint.h>

/* The working bytes that an image of so many bytes needs, and the most that any needs. */
#define HFS_WORK_BYTES(len) (((len) / 512 + 7) / 8)
#define HFS_MOST_WORK_BYTES 8192

/* The same for nodes of any size but 0; the most is the same for all of them. */
#define HFS_EXTENTS_WORK_BYTES(image_length, node_size) (((image_length) / (node_size) + 7) / 8)

/* The editions. */
#define HFS_EDITION_HFS 0
#define HFS_EDITION_HFS_PLUS 1

/* The images that hfs_block takes. */
#define HFS_IMAGE_CATALOG 0
#define HFS_IMAGE_EXTENTS 1

/* A key as one number; numeric order is key order. */
#define HFS_PACKED_KEY(file, fork, start) \
    ((uint64_t)(uint32_t)(file) << 24 | (uint64_t)(uint8_t)(fork) << 16 | (uint64_t)(uint16_t)(start))

#ifdef __cplusplus
extern "C" {
#endif

/*
 * Is the image sound?
 *
 * out[0]  0 for a sound image; 1 for a wrong length; 16 if that is right and too few working bytes
 *         are lent; else the number of the image's first fault, 2 to 10
 * out[1]  the node of the fault's place
 * out[2]  the offset of the fault's place in that node
 */
void hfs_check(const uint8_t *image, size_t len, uint8_t *work, size_t work_len, uint32_t out[3]);

/*
 * What stands under this key? The fork byte is judged first, then the whole image is checked, and
 * only then the tree is searched: found and absent are said of sound images alone.
 *
 * out[0]   0 found, 12 absent, else the number of the refusal: 11, or the check's own
 * out[1]   the node: found, the record's; absent, the last node read; refused, that of the place
 * out[2]   the offset: found, where the record starts in its node; absent, 0; refused, that of the
 *          place
 * out[3]   how many keys the search compared, in all nodes it went through, at most six in each; 0
 *          if refused. In a node it compares the middle one of the records left, of two the later,
 *          and goes on after it if its key is not above the asked one, else before it, until none
 *          is left; the last test in a leaf, for equality, is not counted
 * out[4]   how many nodes the search went through; 0 if refused
 * out[5]   .. out[12]  these nodes, from the root down; unused places are 0
 * data     found: the record's 12 data bytes, three pairs of first block and block count,
 *          big-endian; else zeros
 */
void hfs_lookup(const uint8_t *image, size_t len, uint32_t file, uint8_t fork, uint16_t start,
                uint8_t *work, size_t work_len, uint32_t out[13], uint8_t data[12]);

/*
 * What stands under each of these keys? The rows are measured first, then the whole image is checked,
 * once, and only then the tree is searched, key by key. A key is asked by its HFS_PACKED_KEY, and any
 * other number gets a result too. `keys_len` and `results_len` count elements.
 *
 * out[0]  0 if each key has its result; 15 if there are fewer results than keys; else the check's own
 * out[1]  the node of the fault's place; 0 for 0 and 15
 * out[2]  the offset of the fault's place in that node; 0 for 0 and 15
 *
 * After 0 results[i] is for keys[i], and of a key says what hfs_lookup says:
 *
 *   0      absent
 *   1      no key: its fork byte is neither 00 nor FF, or it is 2 to the 56 or more
 *   other  found: the record's 12 data bytes start at image + results[i]; never below 2
 *
 * Results beyond the keys stay as they were. After any other number all of them do.
 */
void hfs_lookup_many(const uint8_t *image, size_t len, const uint64_t *keys, size_t keys_len,
                     uint32_t *results, size_t results_len, uint8_t *work, size_t work_len,
                     uint32_t out[3]);

/*
 * What can be seen under this key in an image of any state? From node 1 up, the first record with
 * the key in a node that is a whole leaf by itself. Seen proves nothing: a freed node may hold an
 * old record. It needs no working bytes.
 *
 * out[0]  13 seen, 14 not seen, else the number of the refusal: 11, or 1 for an image of more than
 *         33,554,432 bytes
 * out[1]  seen: the node; else 0
 * out[2]  seen: where the record starts in its node; else 0
 * data    seen: the record's 12 data bytes; else zeros
 */
void hfs_salvage(const uint8_t *image, size_t len, uint32_t file, uint8_t fork, uint16_t start,
                 uint32_t out[3], uint8_t data[12]);

/*
 * Is the image sound, by the rules of an edition and with nodes of a size?
 *
 * out[0]  25 if there is no such edition or it has no such node size, and no working byte is touched;
 *         else as hfs_check has it
 * out[1]  the node of the fault's place; 0 for 25
 * out[2]  the offset of the fault's place in that node; 0 for 25
 */
void hfs_extents_check(uint32_t edition, uint32_t node_size, const uint8_t *image, size_t len,
                       uint8_t *work, size_t work_len, uint32_t out[3]);

/*
 * What stands under this key, by the rules of an edition and with nodes of a size? Edition and node
 * size are judged first, then the fork byte, then the whole image, and only then the tree is searched.
 * A start block above 65,535 is in no HFS image: it is searched for, and absent.
 *
 * out[0]   0 found, 12 absent, else the number of the refusal: 25 or 11, with no working byte touched,
 *          or the check's own
 * out[1]   .. out[12]  as hfs_lookup has them; all 0 for 25. The keys compared in a node are at most
 *          the binary digits of its record count: six in HFS, five in HFS Plus nodes of 512 bytes and
 *          eleven in those of 32,768
 * data     found: the record's data bytes, then zeros. In HFS these are 12, three pairs of first block
 *          and block count of 16 bits each; in HFS Plus 64, eight pairs of 32 bits each; big-endian.
 *          Else zeros
 */
void hfs_extents_lookup(uint32_t edition, uint32_t node_size, const uint8_t *image, size_t len,
                        uint32_t file, uint8_t fork, uint32_t start, uint8_t *work, size_t work_len,
                        uint32_t out[13], uint8_t data[64]);

/*
 * What can be seen under this key, by the rules of an edition and with nodes of a size, in an image of
 * any state? Seen proves no more than it does in hfs_salvage. A start block above 65,535 is not seen in
 * any HFS image.
 *
 * out[0]  13 seen, 14 not seen, else the number of the refusal: 25, 11, or 1 for an image of more than
 *         65,536 times the node size in bytes
 * out[1]  seen: the node; else 0
 * out[2]  seen: where the record starts in its node; else 0
 * data    seen: the record's data bytes, 12 in HFS and 64 in HFS Plus, then zeros; else zeros
 */
void hfs_extents_salvage(uint32_t edition, uint32_t node_size, const uint8_t *image, size_t len,
                         uint32_t file, uint8_t fork, uint32_t start, uint32_t out[3],
                         uint8_t data[64]);

/*
 * Is this catalog sound?
 *
 * out[0]  .. out[2]  as hfs_check has them
 */
void hfs_catalog_check(const uint8_t *image, size_t len, uint8_t *work, size_t work_len,
                       uint32_t out[3]);

/*
 * What stands in a catalog under this parent number and this name of `name_len` bytes, which are MacRoman
 * and compared by the HFS character order: a small letter a to z is its capital, and names that weigh the
 * same are the same. The name's length is judged first, then the whole image, and only then the tree is
 * searched.
 *
 * out[0]   0 found, 12 absent, else the number of the refusal: 11, or the check's own
 * out[1]   .. out[12]  as hfs_lookup has them; the keys compared in a node are at most four
 * out[13]  found: the record's type, 1 directory, 2 file, 3 directory thread, 4 file thread; else 0
 * out[14]  found: how many data bytes the record has: 70, 102, 46 or 46; else 0
 * data     found: these bytes, with their type first, then zeros; else zeros
 */
void hfs_catalog_lookup(const uint8_t *image, size_t len, uint32_t parent, const uint8_t *name,
                        size_t name_len, uint8_t *work, size_t work_len, uint32_t out[15],
                        uint8_t data[102]);

/*
 * What can be seen under this key in a catalog of any state? Seen proves no more than it does in
 * hfs_salvage.
 *
 * out[0]  13 seen, 14 not seen, else the number of the refusal: 11, or 1 for an image of more than
 *         33,554,432 bytes
 * out[1]  seen: the node; else 0
 * out[2]  seen: where the record starts in its node; else 0
 * out[3]  seen: the record's type, as in hfs_catalog_lookup; else 0
 * out[4]  seen: how many data bytes the record has; else 0
 * data    seen: these bytes, then zeros; else zeros
 */
void hfs_catalog_salvage(const uint8_t *image, size_t len, uint32_t parent, const uint8_t *name,
                         size_t name_len, uint32_t out[5], uint8_t data[102]);

/*
 * Which block of the volume holds this block of a file's fork? A file's first blocks are found in its
 * record in the catalog, the later ones in the extents overflow file. The file is asked for by its parent
 * number and its name, as in hfs_catalog_lookup, the fork by 00 (data) or FF (resource). Fork byte and name
 * length are judged first, then the whole catalog, then the whole extents image, and only then the block is
 * looked for. Each image has working bytes of its own, in which its own check leaves what hfs_check would:
 * those of the catalog are as they were for 11, and show the nodes in use wherever the catalog is sound,
 * whatever is answered then; those of the extents image are as they were for 11 and for any fault of the
 * catalog, and show the nodes in use for 0, 12, 17, 18 and 24.
 *
 * The block is covered by the file's record if it is below the sum of that fork's three block counts. Else
 * it is covered by the extents record with the highest key not above (file, fork, block), if that has the
 * same file and fork and its three counts, added up from its start block, go past the block.
 *
 * out[0]  0 covered; 12 absent from the catalog; 24 no file; 17 covered by no record; 18 covered, and the
 *         volume block is above 65,535; else the number of the refusal: 11, or the check's own
 * out[1]  the image that this concerns, HFS_IMAGE_CATALOG or HFS_IMAGE_EXTENTS: for 0 and 18 that of the
 *         covering record, for 11, 12 and 24 the catalog, for 17 the extents image, for a check's number
 *         its own
 * out[2]  the node: covered, the covering record's; 12, the last node read of the catalog; refused, that
 *         of the place; else 0
 * out[3]  the offset: covered, where that record starts in its node; refused, that of the place; else 0
 * out[4]  covered: the block of the volume; else 0
 * out[5]  covered: the byte of that image where the covering record's pairs start; else 0
 * out[6]  covered: how many bytes these are, 12; else 0
 * data    covered: these bytes, three pairs of first block and block count, big-endian; else zeros
 */
void hfs_block(const uint8_t *catalog, size_t catalog_len, uint8_t *catalog_work,
               size_t catalog_work_len, const uint8_t *extents, size_t extents_len,
               uint8_t *extents_work, size_t extents_work_len, uint32_t parent, const uint8_t *name,
               size_t name_len, uint8_t fork, uint16_t block, uint32_t out[7], uint8_t data[12]);

/*
 * Lays a fresh tree down: writes an image of HFS as long as the target, whose leaf records are those of the
 * row. A record has 20 bytes: the key's length byte, 07, its fork byte, 00 or FF, its file number (4) and
 * its start block (2), then 12 bytes of data, three pairs of first block and block count; all big-endian.
 * The keys strictly ascend. No records are a row too. The lengths count bytes.
 *
 * The target's length is judged first, then the row, then whether the target has as many nodes as it takes.
 * After 0 every byte of the target is written, whatever it held: the header, then the fewest map nodes
 * that give each of the target's nodes a bit, then leaves of 22 records each, the last with the rest, then
 * each level of index nodes, of 35 records likewise, the root last; all other bytes are zero. The image is
 * sound, and no sound tree with these records has fewer nodes. After any other number the target is as it
 * was.
 *
 * out[0]  0 written; 1 if the target is not 1 to 65,536 whole nodes of 512 bytes; 19 if the row is not of
 *         whole records, or has a wrong length byte or fork byte, or keys that do not strictly ascend; 20
 *         if it takes more nodes than the target has
 * out[1]  0
 * out[2]  0
 */
void hfs_write_tree(const uint8_t *row, size_t row_len, uint8_t *target, size_t target_len,
                    uint32_t out[3]);

#ifdef __cplusplus
}
#endif

#endif
