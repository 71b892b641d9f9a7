/* Reshqobi, the protection monitor: its calls as C functions.
 *
 * Every call takes three slices, each a pointer and a length in bytes, that do not overlap: the image of the state, the store,
 * and the values that come back. docs/IMAGE.md has their layout, docs/CALLS.md the calls. Then comes the calling domain, 0 to 3,
 * and the call's arguments. The result is the answer number: RESHQOBI_DONE, or one of the refusals below.
 *
 * What a refused call leaves is said in docs/CALLS.md, under that heading. Values of a wrong length are not touched.
 * Every function takes every number and every length, and returns. A pointer must point to as many bytes as its length says, and
 * not be null.
 * There is no state beside these slices: calls on different images and stores may run at the same time. A call takes some 140 KB
 * of stack (measured, not proved) and no other memory.
 */
#ifndef RESHQOBI_H
#define RESHQOBI_H

#include <stddef.h>
#include <stdint.h>

#ifdef __cplusplus
extern "C" {
#endif

/* The lengths in bytes of the three slices. */
#define RESHQOBI_IMAGE_BYTES 3592
#define RESHQOBI_STORE_BYTES 65536
#define RESHQOBI_VALUES_BYTES 88

/* The store's words, and the values, each of 8 bytes, the lowest first. */
#define RESHQOBI_STORE_WORDS 8192
#define RESHQOBI_VALUES 11

/* The answer numbers. The refusals stand in the order of their checks: of several the first is given. */
#define RESHQOBI_DONE 0
#define RESHQOBI_STORE_LENGTH 2   /* the store has not RESHQOBI_STORE_BYTES bytes */
#define RESHQOBI_UNREADABLE 13    /* the values have not RESHQOBI_VALUES_BYTES bytes, or the image does not read */
#define RESHQOBI_NO_DOMAIN 4      /* the domain is above 3 */
#define RESHQOBI_OUT_OF_RANGE 5   /* an argument is out of its range */
#define RESHQOBI_LOCKED 6         /* the slot is locked, or the whole lock is set */
#define RESHQOBI_NOT_GRANTED 7    /* the rights are not granted, or the presented capability opens nothing */
#define RESHQOBI_NOT_ENTRY 8      /* the address is no entry, or an entry lies outside the object */
#define RESHQOBI_NO_RUN 9         /* the run leaves the caller's estate or meets an object */
#define RESHQOBI_NOT_PERMITTED 14 /* the account is not in the caller's set */
#define RESHQOBI_LIMIT_PASSED 15  /* the account's pages would pass its limit */
#define RESHQOBI_HAS_PASSWORD 10  /* the object has that password already */
#define RESHQOBI_FULL 11          /* 8 objects, 4 passwords, a registration, 8 slots or 4 saved domains are there already */
#define RESHQOBI_MISSING 12       /* no such slot or password, or nothing saved */

/* The whole lock, as the slot of reshqobi_lo. */
#define RESHQOBI_WHOLE_LOCK 255

/* The last twelve arguments of reshqobi_bt with ample accounts: each limit 128, and each domain with home account 0 and set 15. */
#define RESHQOBI_AMPLE 128, 128, 128, 128, 0, 15, 0, 15, 0, 15, 0, 15

/* The three slices, the same for every call. */
#define RESHQOBI_SLICES                                                                                                    \
    uint8_t *image, size_t image_bytes, uint8_t *store, size_t store_bytes, uint8_t *values, size_t values_bytes

/* BT: the first state and store. A home password for each domain, none 0; the limit of each account in pages, 1 to 128; then for
 * each domain the account of its home page, 0 to 3, and its set, the accounts that it may charge: 0 to 15, with 2 to the power a for
 * account a. A home account outside its set, or a limit below the home pages on its account, is out of range. Looks at the image's
 * length only. Refusals 2, 13, 4, 5. */
uint64_t reshqobi_bt(RESHQOBI_SLICES, uint64_t domain, uint64_t home0, uint64_t home1, uint64_t home2, uint64_t home3,
                     uint64_t limit0, uint64_t limit1, uint64_t limit2, uint64_t limit3, uint64_t account0, uint64_t set0,
                     uint64_t account1, uint64_t set1, uint64_t account2, uint64_t set2, uint64_t account3, uint64_t set3);

/* RD: the word at an address, 0 to 8,191. Refusals 2, 13, 4, 5, 7. */
uint64_t reshqobi_rd(RESHQOBI_SLICES, uint64_t domain, uint64_t address);

/* WR: stores a word. Refusals 2, 13, 4, 5, 7. */
uint64_t reshqobi_wr(RESHQOBI_SLICES, uint64_t domain, uint64_t address, uint64_t word);

/* EX: whether the word may be executed; the value is the address. Refusals 2, 13, 4, 5, 7. */
uint64_t reshqobi_ex(RESHQOBI_SLICES, uint64_t domain, uint64_t address);

/* LK: the address of the pair that grants the rights, 1 to 31. Refusals 2, 13, 4, 5, 7. */
uint64_t reshqobi_lk(RESHQOBI_SLICES, uint64_t domain, uint64_t address, uint64_t rights);

/* CR: a new object of 1 to 32 pages with its owner's password, charged to an account, 0 to 3. Refusals 2, 13, 4, 5, 9, 14, 15, 11. */
uint64_t reshqobi_cr(RESHQOBI_SLICES, uint64_t domain, uint64_t page, uint64_t pages, uint64_t password, uint64_t account);

/* DL: the object goes, and its account has its pages back. Refusals 2, 13, 4, 5, 7. */
uint64_t reshqobi_dl(RESHQOBI_SLICES, uint64_t domain, uint64_t base);

/* AP: a password more, in a mode. Refusals 2, 13, 4, 5, 6, 7, 10, 11. */
uint64_t reshqobi_ap(RESHQOBI_SLICES, uint64_t domain, uint64_t base, uint64_t password, uint64_t mode);

/* DP: a password less, or the registration that has it. Refusals 2, 13, 4, 5, 7, 12. */
uint64_t reshqobi_dp(RESHQOBI_SLICES, uint64_t domain, uint64_t base, uint64_t password);

/* RG: the object becomes a procedure with 1 to 4 entries; entries past their number are not looked at.
 * Refusals 2, 13, 4, 5, 6, 7, 8, 10, 11. */
uint64_t reshqobi_rg(RESHQOBI_SLICES, uint64_t domain, uint64_t base, uint64_t password, uint64_t list_page,
                     uint64_t list_password, uint64_t entries, uint64_t entry0, uint64_t entry1, uint64_t entry2,
                     uint64_t entry3);

/* IN: a Clist capability becomes slot 0 to 7. Refusals 2, 13, 4, 5, 6, 7, 11, 12. */
uint64_t reshqobi_in(RESHQOBI_SLICES, uint64_t domain, uint64_t slot, uint64_t page, uint64_t password);

/* RM: the slot goes. Refusals 2, 13, 4, 5, 6, 12. */
uint64_t reshqobi_rm(RESHQOBI_SLICES, uint64_t domain, uint64_t slot);

/* GT: slots, locked slots, the whole lock as 1 or 0, then each slot's page. Refusals 2, 13, 4. */
uint64_t reshqobi_gt(RESHQOBI_SLICES, uint64_t domain);

/* LO: locks the slot and all before it, or the whole domain. Refusals 2, 13, 4, 5, 12. */
uint64_t reshqobi_lo(RESHQOBI_SLICES, uint64_t domain, uint64_t slot);

/* CA: enters a procedure, its Clist merged in (choice 0) or alone (1); the value is the entry. Refusals 2, 13, 4, 5, 6, 7, 8, 11. */
uint64_t reshqobi_ca(RESHQOBI_SLICES, uint64_t domain, uint64_t entry, uint64_t choice);

/* RT: the domain saved last comes back. Refusals 2, 13, 4, 12. */
uint64_t reshqobi_rt(RESHQOBI_SLICES, uint64_t domain);

#undef RESHQOBI_SLICES

#ifdef __cplusplus
}
#endif

#endif
