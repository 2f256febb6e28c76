/*
 * A RAID-6 stripe: n data disks with the parities P and Q, in one buffer that the caller lends.
 *
 * Layout. A stripe of n data disks and block size b is (n + 2) * b bytes: data disk k stands at k * b, P at n * b and
 * Q at (n + 1) * b. Byte i of every block is column i, and each call treats every column by itself, but that a repair
 * asks first what the columns have in common.
 *
 * Parities. In each column P = D0 + D1 + ... and Q = the sum of 02^k * Dk, in the field of bytes modulo
 * x^8 + x^4 + x^3 + x^2 + 1, where a sum is exclusive or. A stripe that meets both equations is encoded.
 *
 * Numbers. All that are passed are 64 bits wide, lengths too, and are taken whole: none is cut to fit, and any value may
 * be passed. Verdicts and summaries, which a check gives back, are 16 bits wide.
 *
 * Results. 0 is done. Any other result is the number of a refusal, listed with each call in the order in which the
 * tests are made: the first that applies is returned. A refused call changes nothing. Whether a call is refused depends
 * on its numbers and lengths alone, never on the bytes of a buffer, with one exception: refusal 9 of shelf_repair, which
 * comes last, depends on the bytes of the stripe. A result must not be ignored: a stripe after a refused call is the one
 * before it.
 *
 * Buffers. Each pointer to bytes comes with the length in bytes of the buffer behind it, that to the verdicts with their
 * count, and may be null only where that is 0. The pointer to the summary comes alone: it points to one uint16_t, always,
 * and may not be null. Bytes need no alignment; the verdicts and the summary are aligned as uint16_t is. No call reads or
 * writes outside of its buffers or keeps a pointer. Calls allocate nothing, use less than 8 KiB of stack, hold no state
 * and may run at the same time on different stripes.
 *
 * The caller's part. No call can test that a pointer and its length are true of memory that it may use, that a pointer is
 * aligned, that the new bytes of a write lie outside of the stripe, that the stripe, the verdicts and the summary of a
 * check lie outside of each other, or that nobody else uses the buffers meanwhile. Where one of these fails, nothing is
 * promised.
 *
 * Linking. The library calls memcpy and memset of C and nothing else; each of its calls may reach them. The name of the shared
 * library carries the ABI's number, which is the first part of this header's version: as long as it stays, calls are only added.
 */
#ifndef SHELF_H
#define SHELF_H

#include <stddef.h>
#include <stdint.h>

#if SIZE_MAX != UINT64_MAX || UINTPTR_MAX != UINT64_MAX
#error "shelf.h: only targets with 64-bit pointers and lengths are supported"
#endif

#ifdef __cplusplus
extern "C" {
#endif

/* This header's version, and its parts. */
#define SHELF_VERSION "0.5.0"
#define SHELF_VERSION_MAJOR 0
#define SHELF_VERSION_MINOR 5
#define SHELF_VERSION_PATCH 0

/* The largest n and the largest b. */
#define SHELF_MAX_DISKS 255
#define SHELF_MAX_BLOCK 65536

/* Has the compiler warn where a result is ignored; empty where it can't. */
#if (defined(__cplusplus) && __cplusplus >= 201703L) || (defined(__STDC_VERSION__) && __STDC_VERSION__ >= 202311L)
#define SHELF_USE_RESULT [[nodiscard]]
#elif defined(__GNUC__)
#define SHELF_USE_RESULT __attribute__((warn_unused_result))
#else
#define SHELF_USE_RESULT
#endif

/* Results. */
#define SHELF_DONE 0
#define SHELF_BAD_DISKS 1    /* n is 0 or above 255 */
#define SHELF_BAD_BLOCK 2    /* b is 0 or above 65536 */
#define SHELF_BAD_LENGTH 3   /* stripe_len isn't (n + 2) * b */
#define SHELF_BAD_DEVICE 4   /* a data disk is n or more, or a device code has no meaning or is missing */
#define SHELF_SAME_DEVICE 5  /* the same device twice */
#define SHELF_BAD_STRETCH 6  /* count is 0, offset is above b, or count is above b - offset */
#define SHELF_BAD_ROOM 7     /* the count of verdicts isn't b */
#define SHELF_UNCLEAR 9      /* the bytes don't tell which device to repair; no call returns 8 */

/* Device codes of shelf_rebuild. A data disk's code is its number, 0 to 254. */
#define SHELF_P 256
#define SHELF_Q 257
#define SHELF_NONE 65535

/* Verdicts of shelf_check on a column, and summaries of them. SHELF_VERDICT_DATA plus its number names a data disk. */
#define SHELF_VERDICT_CLEAN 0
#define SHELF_VERDICT_P 1
#define SHELF_VERDICT_Q 2
#define SHELF_VERDICT_UNKNOWN 3  /* more than one device is wrong in a column */
#define SHELF_SUMMARY_MIXED 4    /* a summary alone: columns that aren't clean have different verdicts */
#define SHELF_VERDICT_DATA 16

/*
 * Computes P and Q from the data.
 *
 *   n           data disks, 1 to 255
 *   b           block size in bytes, 1 to 65536
 *   stripe      the stripe: P and Q are written, whatever stood there; the data are read and stay
 *   stripe_len  (n + 2) * b
 *
 * Refusals, in order:
 *   1  n is 0 or above 255
 *   2  b is 0 or above 65536
 *   3  stripe_len isn't (n + 2) * b
 */
SHELF_USE_RESULT
uint8_t shelf_encode(uint64_t n, uint64_t b, uint8_t *stripe, size_t stripe_len);

/*
 * Writes new bytes to a stretch of one data disk, and adds the change to P and Q at its columns: P gains old + new and
 * Q gains 02^disk * (old + new). An encoded stripe stays encoded; on any other, each column stays as far from its
 * equations as it was.
 *
 *   n           data disks, 1 to 255
 *   b           block size in bytes, 1 to 65536
 *   stripe      the stripe: written at the stretch and at its columns of P and Q; no other byte changes
 *   stripe_len  (n + 2) * b
 *   disk        the data disk, 0 to n - 1
 *   offset      where the stretch starts in the disk's block, in bytes, 0 to b - 1
 *   bytes       the new bytes, which are only read. They must not overlap the stripe: the compiled code counts on it, as
 *               memcpy does, and where they do nothing is promised of the stripe
 *   count       how many: at least 1, at most b - offset. A write of none is refused, whatever the offset, so that one
 *               that is done has put bytes on the disk
 *
 * Refusals, in order:
 *   1  n is 0 or above 255
 *   2  b is 0 or above 65536
 *   3  stripe_len isn't (n + 2) * b
 *   4  disk is n or more
 *   6  count is 0, offset is above b, or count is above b - offset
 */
SHELF_USE_RESULT
uint8_t shelf_write(uint64_t n, uint64_t b, uint8_t *stripe, size_t stripe_len, uint64_t disk, uint64_t offset,
                    const uint8_t *bytes, size_t count);

/*
 * Replaces the blocks of one or two lost devices. What stood on them has no influence, the other blocks stay, and the
 * order of the two names doesn't matter.
 *
 *   one data disk    from P and the other data; Q is neither read nor changed
 *   P or Q           computed from the data
 *   data and P       the data from Q and the other data, then P
 *   data and Q       the data from P and the other data, then Q
 *   P and Q          both computed from the data
 *   two data disks   from P, Q and the other data
 *
 * With two names the result meets both equations, and no other bytes on those devices would. With one name it meets
 * the equation that was used.
 *
 *   n           data disks, 1 to 255
 *   b           block size in bytes, 1 to 65536
 *   stripe      the stripe: the blocks of the named devices are written
 *   stripe_len  (n + 2) * b
 *   first       a device: a data disk 0 to n - 1, SHELF_P or SHELF_Q
 *   second      another device, or SHELF_NONE if one alone is lost
 *
 * Refusals, in order:
 *   1  n is 0 or above 255
 *   2  b is 0 or above 65536
 *   3  stripe_len isn't (n + 2) * b
 *   4  first is no device of this stripe (SHELF_NONE is none), or second is neither one nor SHELF_NONE
 *   5  first and second are the same device
 */
SHELF_USE_RESULT
uint8_t shelf_rebuild(uint64_t n, uint64_t b, uint8_t *stripe, size_t stripe_len, uint64_t first, uint64_t second);

/*
 * Compares the stored P and Q with those that the data give. Each column gets a verdict:
 *
 *   0       clean: it meets both equations
 *   1       with another byte in P it would
 *   2       with another byte in Q it would
 *   16 + z  with another byte on data disk z it would
 *   3       with another byte on any one device it would not: more than one device is wrong
 *
 * The summary is 0 if every column is clean, the common verdict if all that aren't clean have the same, and 4, mixed, if
 * they don't.
 *
 * If at most one device is wrong in a column, the verdict tells which. If two are, it is 3 or names a third device; if
 * more are, it can be any. Two parities can't tell these apart.
 *
 *   n           data disks, 1 to 255
 *   b           block size in bytes, 1 to 65536
 *   stripe      the stripe, which is only read
 *   stripe_len  (n + 2) * b
 *   verdicts    where the verdict of column i goes, to verdicts[i]; aligned as uint16_t is. They must not overlap the
 *               stripe
 *   count       how many fit there, counted in verdicts and not in bytes: b
 *   summary     where the summary goes; not null, aligned as uint16_t is. It must not overlap the stripe or the verdicts
 *
 * Refusals, in order; the verdicts and the summary then stay as they were:
 *   1  n is 0 or above 255
 *   2  b is 0 or above 65536
 *   3  stripe_len isn't (n + 2) * b
 *   7  count isn't b
 */
SHELF_USE_RESULT
uint8_t shelf_check(uint64_t n, uint64_t b, const uint8_t *stripe, size_t stripe_len, uint16_t *verdicts, size_t count,
                    uint16_t *summary);

/*
 * Repairs a stripe whose check names one device, as its summary has it:
 *
 *   0       every column is clean: nothing changes
 *   1, 2    P or Q is computed from the data, in the columns that aren't clean
 *   16 + z  data disk z from P and the other data, in the columns that aren't clean
 *   3, 4    refused with 9: more than one device is wrong in a column, or unclean columns have different verdicts
 *
 * Columns that are clean stay as they are. When the call is done the stripe is encoded. If one device alone was wrong,
 * on however many columns, the stripe is the one that was written.
 *
 * What it can't know: damage on two or more devices can look like damage on one, which needn't be one of them. Then the
 * call is done and the stripe is encoded, but it isn't the one that was written, and no later check will say so. Repair a
 * stripe only where at most one device can be wrong; where it is known which devices are lost, shelf_rebuild is told
 * them and asks no check.
 *
 *   n           data disks, 1 to 255
 *   b           block size in bytes, 1 to 65536
 *   stripe      the stripe: the block of the device that the check names is written, and its bytes in the columns that
 *               aren't clean alone change
 *   stripe_len  (n + 2) * b
 *
 * Refusals, in order:
 *   1  n is 0 or above 255
 *   2  b is 0 or above 65536
 *   3  stripe_len isn't (n + 2) * b
 *   9  the summary of the check is 3 or 4; this alone depends on the bytes of the stripe
 */
SHELF_USE_RESULT
uint8_t shelf_repair(uint64_t n, uint64_t b, uint8_t *stripe, size_t stripe_len);

#ifdef __cplusplus
}
#endif

#endif
