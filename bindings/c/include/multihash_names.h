/* SPDX-License-Identifier: MIT
 * Copyright (c) 2026 The Gilmekhus developers
 * Made by tools/generate tables. */

/* The names of hash functions in the multicodec table, and their codes: tested over the test vectors. */
#ifndef MULTIHASH_NAMES_H
#define MULTIHASH_NAMES_H

#include "multihash.h"

#include <string.h>

#ifdef __cplusplus
extern "C" {
#endif

/* What multihash_code returns for a text that is not a name. It is not a valid code. */
#define MULTIHASH_NO_CODE UINT64_MAX

struct mh_name {
    uint64_t code;
    const char *name;
};

/* The table. Its last row has no name. */
static inline const struct mh_name *mh_names(void)
{
    static const struct mh_name names[] = {
        {0x0, "identity"}, {0x11, "sha1"}, {0x12, "sha2-256"}, {0x13, "sha2-512"}, {0x14, "sha3-512"},
        {0x15, "sha3-384"}, {0x16, "sha3-256"}, {0x17, "sha3-224"}, {0x18, "shake-128"}, {0x19, "shake-256"},
        {0x1a, "keccak-224"}, {0x1b, "keccak-256"}, {0x1c, "keccak-384"}, {0x1d, "keccak-512"}, {0x1e, "blake3"},
        {0x20, "sha2-384"}, {0x22, "murmur3-x64-64"}, {0x23, "murmur3-32"}, {0x56, "dbl-sha2-256"}, {0xd4, "md4"},
        {0xd5, "md5"}, {0xd6, "bmt"}, {0x1011, "fr32-sha256-trunc254-padbintree"},
        {0x1012, "sha2-256-trunc254-padded"}, {0x1013, "sha2-224"}, {0x1014, "sha2-512-224"},
        {0x1015, "sha2-512-256"}, {0x1022, "murmur3-x64-128"}, {0x1052, "ripemd-128"}, {0x1053, "ripemd-160"},
        {0x1054, "ripemd-256"}, {0x1055, "ripemd-320"}, {0x1100, "x11"}, {0x1d01, "kangarootwelve"},
        {0x534d, "sm3-256"}, {0x7012, "sha256a"}, {0xb201, "blake2b-8"}, {0xb202, "blake2b-16"},
        {0xb203, "blake2b-24"}, {0xb204, "blake2b-32"}, {0xb205, "blake2b-40"}, {0xb206, "blake2b-48"},
        {0xb207, "blake2b-56"}, {0xb208, "blake2b-64"}, {0xb209, "blake2b-72"}, {0xb20a, "blake2b-80"},
        {0xb20b, "blake2b-88"}, {0xb20c, "blake2b-96"}, {0xb20d, "blake2b-104"}, {0xb20e, "blake2b-112"},
        {0xb20f, "blake2b-120"}, {0xb210, "blake2b-128"}, {0xb211, "blake2b-136"}, {0xb212, "blake2b-144"},
        {0xb213, "blake2b-152"}, {0xb214, "blake2b-160"}, {0xb215, "blake2b-168"}, {0xb216, "blake2b-176"},
        {0xb217, "blake2b-184"}, {0xb218, "blake2b-192"}, {0xb219, "blake2b-200"}, {0xb21a, "blake2b-208"},
        {0xb21b, "blake2b-216"}, {0xb21c, "blake2b-224"}, {0xb21d, "blake2b-232"}, {0xb21e, "blake2b-240"},
        {0xb21f, "blake2b-248"}, {0xb220, "blake2b-256"}, {0xb221, "blake2b-264"}, {0xb222, "blake2b-272"},
        {0xb223, "blake2b-280"}, {0xb224, "blake2b-288"}, {0xb225, "blake2b-296"}, {0xb226, "blake2b-304"},
        {0xb227, "blake2b-312"}, {0xb228, "blake2b-320"}, {0xb229, "blake2b-328"}, {0xb22a, "blake2b-336"},
        {0xb22b, "blake2b-344"}, {0xb22c, "blake2b-352"}, {0xb22d, "blake2b-360"}, {0xb22e, "blake2b-368"},
        {0xb22f, "blake2b-376"}, {0xb230, "blake2b-384"}, {0xb231, "blake2b-392"}, {0xb232, "blake2b-400"},
        {0xb233, "blake2b-408"}, {0xb234, "blake2b-416"}, {0xb235, "blake2b-424"}, {0xb236, "blake2b-432"},
        {0xb237, "blake2b-440"}, {0xb238, "blake2b-448"}, {0xb239, "blake2b-456"}, {0xb23a, "blake2b-464"},
        {0xb23b, "blake2b-472"}, {0xb23c, "blake2b-480"}, {0xb23d, "blake2b-488"}, {0xb23e, "blake2b-496"},
        {0xb23f, "blake2b-504"}, {0xb240, "blake2b-512"}, {0xb241, "blake2s-8"}, {0xb242, "blake2s-16"},
        {0xb243, "blake2s-24"}, {0xb244, "blake2s-32"}, {0xb245, "blake2s-40"}, {0xb246, "blake2s-48"},
        {0xb247, "blake2s-56"}, {0xb248, "blake2s-64"}, {0xb249, "blake2s-72"}, {0xb24a, "blake2s-80"},
        {0xb24b, "blake2s-88"}, {0xb24c, "blake2s-96"}, {0xb24d, "blake2s-104"}, {0xb24e, "blake2s-112"},
        {0xb24f, "blake2s-120"}, {0xb250, "blake2s-128"}, {0xb251, "blake2s-136"}, {0xb252, "blake2s-144"},
        {0xb253, "blake2s-152"}, {0xb254, "blake2s-160"}, {0xb255, "blake2s-168"}, {0xb256, "blake2s-176"},
        {0xb257, "blake2s-184"}, {0xb258, "blake2s-192"}, {0xb259, "blake2s-200"}, {0xb25a, "blake2s-208"},
        {0xb25b, "blake2s-216"}, {0xb25c, "blake2s-224"}, {0xb25d, "blake2s-232"}, {0xb25e, "blake2s-240"},
        {0xb25f, "blake2s-248"}, {0xb260, "blake2s-256"}, {0xb301, "skein256-8"}, {0xb302, "skein256-16"},
        {0xb303, "skein256-24"}, {0xb304, "skein256-32"}, {0xb305, "skein256-40"}, {0xb306, "skein256-48"},
        {0xb307, "skein256-56"}, {0xb308, "skein256-64"}, {0xb309, "skein256-72"}, {0xb30a, "skein256-80"},
        {0xb30b, "skein256-88"}, {0xb30c, "skein256-96"}, {0xb30d, "skein256-104"}, {0xb30e, "skein256-112"},
        {0xb30f, "skein256-120"}, {0xb310, "skein256-128"}, {0xb311, "skein256-136"}, {0xb312, "skein256-144"},
        {0xb313, "skein256-152"}, {0xb314, "skein256-160"}, {0xb315, "skein256-168"}, {0xb316, "skein256-176"},
        {0xb317, "skein256-184"}, {0xb318, "skein256-192"}, {0xb319, "skein256-200"}, {0xb31a, "skein256-208"},
        {0xb31b, "skein256-216"}, {0xb31c, "skein256-224"}, {0xb31d, "skein256-232"}, {0xb31e, "skein256-240"},
        {0xb31f, "skein256-248"}, {0xb320, "skein256-256"}, {0xb321, "skein512-8"}, {0xb322, "skein512-16"},
        {0xb323, "skein512-24"}, {0xb324, "skein512-32"}, {0xb325, "skein512-40"}, {0xb326, "skein512-48"},
        {0xb327, "skein512-56"}, {0xb328, "skein512-64"}, {0xb329, "skein512-72"}, {0xb32a, "skein512-80"},
        {0xb32b, "skein512-88"}, {0xb32c, "skein512-96"}, {0xb32d, "skein512-104"}, {0xb32e, "skein512-112"},
        {0xb32f, "skein512-120"}, {0xb330, "skein512-128"}, {0xb331, "skein512-136"}, {0xb332, "skein512-144"},
        {0xb333, "skein512-152"}, {0xb334, "skein512-160"}, {0xb335, "skein512-168"}, {0xb336, "skein512-176"},
        {0xb337, "skein512-184"}, {0xb338, "skein512-192"}, {0xb339, "skein512-200"}, {0xb33a, "skein512-208"},
        {0xb33b, "skein512-216"}, {0xb33c, "skein512-224"}, {0xb33d, "skein512-232"}, {0xb33e, "skein512-240"},
        {0xb33f, "skein512-248"}, {0xb340, "skein512-256"}, {0xb341, "skein512-264"}, {0xb342, "skein512-272"},
        {0xb343, "skein512-280"}, {0xb344, "skein512-288"}, {0xb345, "skein512-296"}, {0xb346, "skein512-304"},
        {0xb347, "skein512-312"}, {0xb348, "skein512-320"}, {0xb349, "skein512-328"}, {0xb34a, "skein512-336"},
        {0xb34b, "skein512-344"}, {0xb34c, "skein512-352"}, {0xb34d, "skein512-360"}, {0xb34e, "skein512-368"},
        {0xb34f, "skein512-376"}, {0xb350, "skein512-384"}, {0xb351, "skein512-392"}, {0xb352, "skein512-400"},
        {0xb353, "skein512-408"}, {0xb354, "skein512-416"}, {0xb355, "skein512-424"}, {0xb356, "skein512-432"},
        {0xb357, "skein512-440"}, {0xb358, "skein512-448"}, {0xb359, "skein512-456"}, {0xb35a, "skein512-464"},
        {0xb35b, "skein512-472"}, {0xb35c, "skein512-480"}, {0xb35d, "skein512-488"}, {0xb35e, "skein512-496"},
        {0xb35f, "skein512-504"}, {0xb360, "skein512-512"}, {0xb361, "skein1024-8"}, {0xb362, "skein1024-16"},
        {0xb363, "skein1024-24"}, {0xb364, "skein1024-32"}, {0xb365, "skein1024-40"}, {0xb366, "skein1024-48"},
        {0xb367, "skein1024-56"}, {0xb368, "skein1024-64"}, {0xb369, "skein1024-72"}, {0xb36a, "skein1024-80"},
        {0xb36b, "skein1024-88"}, {0xb36c, "skein1024-96"}, {0xb36d, "skein1024-104"}, {0xb36e, "skein1024-112"},
        {0xb36f, "skein1024-120"}, {0xb370, "skein1024-128"}, {0xb371, "skein1024-136"}, {0xb372, "skein1024-144"},
        {0xb373, "skein1024-152"}, {0xb374, "skein1024-160"}, {0xb375, "skein1024-168"}, {0xb376, "skein1024-176"},
        {0xb377, "skein1024-184"}, {0xb378, "skein1024-192"}, {0xb379, "skein1024-200"}, {0xb37a, "skein1024-208"},
        {0xb37b, "skein1024-216"}, {0xb37c, "skein1024-224"}, {0xb37d, "skein1024-232"}, {0xb37e, "skein1024-240"},
        {0xb37f, "skein1024-248"}, {0xb380, "skein1024-256"}, {0xb381, "skein1024-264"}, {0xb382, "skein1024-272"},
        {0xb383, "skein1024-280"}, {0xb384, "skein1024-288"}, {0xb385, "skein1024-296"}, {0xb386, "skein1024-304"},
        {0xb387, "skein1024-312"}, {0xb388, "skein1024-320"}, {0xb389, "skein1024-328"}, {0xb38a, "skein1024-336"},
        {0xb38b, "skein1024-344"}, {0xb38c, "skein1024-352"}, {0xb38d, "skein1024-360"}, {0xb38e, "skein1024-368"},
        {0xb38f, "skein1024-376"}, {0xb390, "skein1024-384"}, {0xb391, "skein1024-392"}, {0xb392, "skein1024-400"},
        {0xb393, "skein1024-408"}, {0xb394, "skein1024-416"}, {0xb395, "skein1024-424"}, {0xb396, "skein1024-432"},
        {0xb397, "skein1024-440"}, {0xb398, "skein1024-448"}, {0xb399, "skein1024-456"}, {0xb39a, "skein1024-464"},
        {0xb39b, "skein1024-472"}, {0xb39c, "skein1024-480"}, {0xb39d, "skein1024-488"}, {0xb39e, "skein1024-496"},
        {0xb39f, "skein1024-504"}, {0xb3a0, "skein1024-512"}, {0xb3a1, "skein1024-520"}, {0xb3a2, "skein1024-528"},
        {0xb3a3, "skein1024-536"}, {0xb3a4, "skein1024-544"}, {0xb3a5, "skein1024-552"}, {0xb3a6, "skein1024-560"},
        {0xb3a7, "skein1024-568"}, {0xb3a8, "skein1024-576"}, {0xb3a9, "skein1024-584"}, {0xb3aa, "skein1024-592"},
        {0xb3ab, "skein1024-600"}, {0xb3ac, "skein1024-608"}, {0xb3ad, "skein1024-616"}, {0xb3ae, "skein1024-624"},
        {0xb3af, "skein1024-632"}, {0xb3b0, "skein1024-640"}, {0xb3b1, "skein1024-648"}, {0xb3b2, "skein1024-656"},
        {0xb3b3, "skein1024-664"}, {0xb3b4, "skein1024-672"}, {0xb3b5, "skein1024-680"}, {0xb3b6, "skein1024-688"},
        {0xb3b7, "skein1024-696"}, {0xb3b8, "skein1024-704"}, {0xb3b9, "skein1024-712"}, {0xb3ba, "skein1024-720"},
        {0xb3bb, "skein1024-728"}, {0xb3bc, "skein1024-736"}, {0xb3bd, "skein1024-744"}, {0xb3be, "skein1024-752"},
        {0xb3bf, "skein1024-760"}, {0xb3c0, "skein1024-768"}, {0xb3c1, "skein1024-776"}, {0xb3c2, "skein1024-784"},
        {0xb3c3, "skein1024-792"}, {0xb3c4, "skein1024-800"}, {0xb3c5, "skein1024-808"}, {0xb3c6, "skein1024-816"},
        {0xb3c7, "skein1024-824"}, {0xb3c8, "skein1024-832"}, {0xb3c9, "skein1024-840"}, {0xb3ca, "skein1024-848"},
        {0xb3cb, "skein1024-856"}, {0xb3cc, "skein1024-864"}, {0xb3cd, "skein1024-872"}, {0xb3ce, "skein1024-880"},
        {0xb3cf, "skein1024-888"}, {0xb3d0, "skein1024-896"}, {0xb3d1, "skein1024-904"}, {0xb3d2, "skein1024-912"},
        {0xb3d3, "skein1024-920"}, {0xb3d4, "skein1024-928"}, {0xb3d5, "skein1024-936"}, {0xb3d6, "skein1024-944"},
        {0xb3d7, "skein1024-952"}, {0xb3d8, "skein1024-960"}, {0xb3d9, "skein1024-968"}, {0xb3da, "skein1024-976"},
        {0xb3db, "skein1024-984"}, {0xb3dc, "skein1024-992"}, {0xb3dd, "skein1024-1000"}, {0xb3de, "skein1024-1008"},
        {0xb3df, "skein1024-1016"}, {0xb3e0, "skein1024-1024"}, {0xb3e1, "xxh-32"}, {0xb3e2, "xxh-64"},
        {0xb3e3, "xxh3-64"}, {0xb3e4, "xxh3-128"}, {0xb401, "poseidon-bls12_381-a2-fc1"},
        {0xb402, "poseidon-bls12_381-a2-fc1-sc"}, {0xb502, "ssz-sha2-256-bmt"}, {0xb510, "sha2-256-chunked"},
        {MULTIHASH_NO_CODE, NULL},
    };
    return names;
}

/* Returns the name of the hash function of a code, a static string such as "sha2-256", or a null pointer if no hash
 * function has the code. */
static inline const char *multihash_name(uint64_t code)
{
    const struct mh_name *row = mh_names();
    while (row->name != NULL && row->code != code) row++;
    return row->name;
}

/* Returns the code of a name, a string that ends in a zero byte, or MULTIHASH_NO_CODE if no hash function has the name. */
static inline uint64_t multihash_code(const char *name)
{
    const struct mh_name *row = mh_names();
    while (row->name != NULL && strcmp(row->name, name) != 0) row++;
    return row->code;
}

#ifdef __cplusplus
}
#endif

#endif
