/*
 * The dock stream, in portable C99: what dock.h declares.
 *
 * Made by port/translate (`make c`) from the MIR that the proved crates hold, with rattle-kit-13f logic dac8208d650f15bf.
 * Do not edit it. Each function but the last ones is a function of that MIR, a statement for a statement.
 *
 * That MIR is proved for every input. Not proved: this translation of it, the C compiler, and sizes behind references, which lie in C as
 * size_t and are read as the 64 bits of the proofs. docs/INTEGRATION.md says under Ports what is compared instead.
 */
#include "dock.h"

#include <stdbool.h>
#include <stddef.h>
#include <stdint.h>

/* A size has 64 bits, as in the proofs, on every controller. */
typedef uint64_t usize;

typedef char dock_frame_has_1563[sizeof(dock_frame) == 1563 ? 1 : -1];

typedef struct array_u8_2 {
    uint8_t at[2];
} array_u8_2;

/* frames::FrameLength */
typedef struct frames__FrameLength {
    uint16_t f0;
} frames__FrameLength;

/* frames::Fault */
typedef struct frames__Fault {
    uint8_t tag;
} frames__Fault;

/* dock::Stream */
typedef struct dock__Stream {
    uint8_t tag;
    union {
        struct {
            frames__FrameLength f1;
        } v0;
        struct {
            frames__Fault f1;
        } v1;
    } as;
} dock__Stream;

/* frames::Kind */
typedef struct frames__Kind {
    uint8_t tag;
} frames__Kind;

/* frames::WriteRefusal */
typedef struct frames__WriteRefusal {
    uint8_t tag;
} frames__WriteRefusal;

typedef struct slice_u8 {
    const uint8_t *at;
    usize length;
} slice_u8;

typedef struct slice_mut_u8 {
    uint8_t *at;
    usize length;
} slice_mut_u8;

/* core::option::Option<frames::Kind> */
typedef struct core__option__Option__frames__Kind {
    uint8_t tag;
    union {
        struct {
            frames__Kind f1;
        } v1;
    } as;
} core__option__Option__frames__Kind;

/* frames::BodyLength */
typedef struct frames__BodyLength {
    uint16_t f0;
} frames__BodyLength;

/* frames::Step */
typedef struct frames__Step {
    uint8_t tag;
    union {
        struct {
            frames__Kind f1;
            frames__BodyLength f2;
        } v0;
        struct {
            frames__FrameLength f1;
        } v1;
        struct {
            frames__Fault f1;
        } v2;
    } as;
} frames__Step;

/* core::result::Result<frames::FrameLength, frames::WriteRefusal> */
typedef struct core__result__Result__frames__FrameLength__frames__WriteRefusal {
    uint8_t tag;
    union {
        struct {
            frames__FrameLength f1;
        } v0;
        struct {
            frames__WriteRefusal f1;
        } v1;
    } as;
} core__result__Result__frames__FrameLength__frames__WriteRefusal;

/* dock::Fed */
typedef struct dock__Fed {
    dock__Stream f0;
    frames__Step f1;
    usize f2;
} dock__Fed;

/* dock::Part */
typedef struct dock__Part {
    frames__Step f0;
    usize f1;
} dock__Part;

static uint16_t core__int__u16__from_le_bytes(array_u8_2 v1);
static dock_stream core__convert__AnyInto__into__dock__Stream__dock__HostStream(dock__Stream v1);
static uint16_t core__convert__AnyInto__into__frames__Fault__u16(frames__Fault v1);
static uint16_t core__convert__AnyInto__into__frames__Kind__u16(frames__Kind v1);
static uint8_t core__convert__AnyInto__into__frames__WriteRefusal__u8(frames__WriteRefusal v1);
static usize core__int__usize__min(usize v1, usize v2);
static array_u8_2 core__int__u16__to_le_bytes(uint16_t v1);
static uint16_t primitives__little_endian_at(slice_u8 v1, usize v2);
static void primitives__put(slice_mut_u8 v1, usize v2, slice_u8 v3);
static void primitives__put_little_endian(slice_mut_u8 v1, usize v2, uint16_t v3);
static const uint16_t *remainder__table(void);
static uint16_t remainder__with_byte(uint16_t v1, uint8_t v2);
static uint16_t remainder__remainder(slice_u8 v1);
static bool frames__check_right(slice_u8 v1);
static uint16_t frames__U16FromFault__from(frames__Fault v1);
static uint16_t frames__U16FromKind__from(frames__Kind v1);
static uint8_t frames__U8FromWriteRefusal__from(frames__WriteRefusal v1);
static core__option__Option__frames__Kind frames__kind_numbered(uint16_t v1);
static frames__Step frames__judge_head(slice_u8 v1);
static frames__Step frames__judge(slice_u8 v1);
static void frames__write_check(slice_mut_u8 v1, usize v2, usize v3);
static void frames__write_unchecked(frames__Kind v1, slice_u8 v2, slice_mut_u8 v3, uint16_t v4);
static core__result__Result__frames__FrameLength__frames__WriteRefusal frames__write_frame(frames__Kind v1, slice_u8 v2, slice_mut_u8 v3);
static uint8_t frames__write_for_host(frames__Kind v1, slice_u8 v2, slice_mut_u8 v3);
static dock_fed dock__HostFedFromFed__from(dock__Fed v1);
static dock_stream dock__HostStreamFromStream__from(dock__Stream v1);
static dock__Stream dock__StreamFromHostStream__from(dock_stream v1);
static usize dock__next_judged(slice_u8 v1);
static usize dock__head_judged(slice_u8 v1);
static frames__Step dock__put_behind(usize v1, slice_mut_u8 v2, slice_u8 v3);
static usize dock__reach(usize v1, slice_u8 v2, slice_u8 v3);
static dock__Part dock__collect(usize v1, uint8_t *v2, slice_u8 v3);
static frames__Step dock__Stream__resting(dock__Stream v1);
static dock__Stream dock__Stream__start(void);
static dock__Stream dock__Stream__after(frames__Step v1);
static dock_stream dock__start_for_host(void);
static dock__Part dock__Stream__take_part(dock__Stream v1, uint8_t *v2, slice_u8 v3);
static dock__Fed dock__Stream__feed(dock__Stream v1, uint8_t *v2, slice_u8 v3);
static dock_fed dock__feed_for_host(dock_stream v1, uint8_t *v2, slice_u8 v3);
static dock_fed firmware__dock_feed(dock_stream v1, uint8_t *v2, slice_u8 v3);
static dock_stream firmware__dock_start(void);
static uint8_t firmware__dock_write_command(slice_u8 v1, slice_mut_u8 v2);
static uint8_t firmware__dock_write_response(slice_u8 v1, slice_mut_u8 v2);

/* core::int::u16::from_le_bytes */
static uint16_t core__int__u16__from_le_bytes(array_u8_2 v1)
{
    uint16_t result;
    array_u8_2 v2;
    uint8_t *v3;
    uint8_t *v4;
    uint8_t v5;
    uint16_t v6;
    uint8_t *v7;
    uint8_t *v8;
    uint8_t v9;
    uint16_t v10;
    uint16_t v11;
    v2 = v1;
    v3 = v2.at;
    v4 = v3 + 0u;
    v5 = *v4;
    v6 = (uint16_t)v5;
    v7 = v2.at;
    v8 = v7 + 1u;
    v9 = *v8;
    v10 = (uint16_t)v9;
    v11 = (uint16_t)((uint32_t)v10 * (uint32_t)256u);
    result = (uint16_t)((uint32_t)v6 + (uint32_t)v11);
    return result;
}

/* core::convert::AnyInto::into<dock::Stream, dock::HostStream> */
static dock_stream core__convert__AnyInto__into__dock__Stream__dock__HostStream(dock__Stream v1)
{
    dock_stream result;
    dock__Stream v2;
    v2 = v1;
    result = dock__HostStreamFromStream__from(v2);
    return result;
}

/* core::convert::AnyInto::into<frames::Fault, u16> */
static uint16_t core__convert__AnyInto__into__frames__Fault__u16(frames__Fault v1)
{
    uint16_t result;
    frames__Fault v2;
    v2 = v1;
    result = frames__U16FromFault__from(v2);
    return result;
}

/* core::convert::AnyInto::into<frames::Kind, u16> */
static uint16_t core__convert__AnyInto__into__frames__Kind__u16(frames__Kind v1)
{
    uint16_t result;
    frames__Kind v2;
    v2 = v1;
    result = frames__U16FromKind__from(v2);
    return result;
}

/* core::convert::AnyInto::into<frames::WriteRefusal, u8> */
static uint8_t core__convert__AnyInto__into__frames__WriteRefusal__u8(frames__WriteRefusal v1)
{
    uint8_t result;
    frames__WriteRefusal v2;
    v2 = v1;
    result = frames__U8FromWriteRefusal__from(v2);
    return result;
}

/* core::int::usize::min */
static usize core__int__usize__min(usize v1, usize v2)
{
    usize result;
    bool v3;
    usize v4;
    v3 = v2 < v1;
    if (v3) {
        v4 = v2;
    } else {
        v4 = v1;
    }
    result = v4;
    return result;
}

/* core::int::u16::to_le_bytes */
static array_u8_2 core__int__u16__to_le_bytes(uint16_t v1)
{
    array_u8_2 result;
    uint16_t v2;
    uint8_t v3;
    uint16_t v4;
    uint16_t v5;
    uint8_t v6;
    v2 = (uint16_t)((uint32_t)v1 % (uint32_t)256u);
    v3 = (uint8_t)v2;
    v4 = (uint16_t)((uint32_t)v1 / (uint32_t)256u);
    v5 = (uint16_t)((uint32_t)v4 % (uint32_t)256u);
    v6 = (uint8_t)v5;
    result = (array_u8_2){ { v3, v6 } };
    return result;
}

/* primitives::little_endian_at */
static uint16_t primitives__little_endian_at(slice_u8 v1, usize v2)
{
    uint16_t result;
    const uint8_t *v3;
    uint8_t v4;
    usize v5;
    const uint8_t *v6;
    uint8_t v7;
    array_u8_2 v8;
    v3 = v1.at + v2;
    v4 = *v3;
    v5 = v2 + 1u;
    v6 = v1.at + v5;
    v7 = *v6;
    v8 = (array_u8_2){ { v4, v7 } };
    result = core__int__u16__from_le_bytes(v8);
    return result;
}

/* primitives::put */
static void primitives__put(slice_mut_u8 v1, usize v2, slice_u8 v3)
{
    usize v4;
    usize v5;
    bool v6;
    const uint8_t *v7;
    uint8_t v8;
    usize v9;
    uint8_t *v10;
    v4 = 0u;
    v5 = v3.length;
    for (;;) {
        v6 = v4 < v5;
        if (!v6) {
            break;
        }
        v7 = v3.at + v4;
        v8 = *v7;
        v9 = v2 + v4;
        v10 = v1.at + v9;
        *v10 = v8;
        v4 = v4 + 1u;
    }
    return;
}

/* primitives::put_little_endian */
static void primitives__put_little_endian(slice_mut_u8 v1, usize v2, uint16_t v3)
{
    uint8_t *v5;
    slice_mut_u8 v6;
    array_u8_2 v7;
    array_u8_2 v8;
    const uint8_t *v9;
    slice_u8 v10;
    v5 = v1.at;
    v6 = (slice_mut_u8){ .at = v5, .length = v1.length };
    v7 = core__int__u16__to_le_bytes(v3);
    v8 = v7;
    v9 = v8.at;
    v10 = (slice_u8){ .at = v9, .length = 2u };
    primitives__put(v6, v2, v10);
    return;
}

/* remainder::table */
static const uint16_t *remainder__table(void)
{
    const uint16_t *result;
    static const uint16_t lent1[256] = { 0u, 4489u, 8978u, 12955u, 17956u, 22445u, 25910u, 29887u, 35912u, 40385u, 44890u, 48851u, 51820u, 56293u, 59774u, 63735u,
        4225u, 264u, 13203u, 8730u, 22181u, 18220u, 30135u, 25662u, 40137u, 36160u, 49115u, 44626u, 56045u, 52068u, 63999u, 59510u,
        8450u, 12427u, 528u, 5017u, 26406u, 30383u, 17460u, 21949u, 44362u, 48323u, 36440u, 40913u, 60270u, 64231u, 51324u, 55797u,
        12675u, 8202u, 4753u, 792u, 30631u, 26158u, 21685u, 17724u, 48587u, 44098u, 40665u, 36688u, 64495u, 60006u, 55549u, 51572u,
        16900u, 21389u, 24854u, 28831u, 1056u, 5545u, 10034u, 14011u, 52812u, 57285u, 60766u, 64727u, 34920u, 39393u, 43898u, 47859u,
        21125u, 17164u, 29079u, 24606u, 5281u, 1320u, 14259u, 9786u, 57037u, 53060u, 64991u, 60502u, 39145u, 35168u, 48123u, 43634u,
        25350u, 29327u, 16404u, 20893u, 9506u, 13483u, 1584u, 6073u, 61262u, 65223u, 52316u, 56789u, 43370u, 47331u, 35448u, 39921u,
        29575u, 25102u, 20629u, 16668u, 13731u, 9258u, 5809u, 1848u, 65487u, 60998u, 56541u, 52564u, 47595u, 43106u, 39673u, 35696u,
        33800u, 38273u, 42778u, 46739u, 49708u, 54181u, 57662u, 61623u, 2112u, 6601u, 11090u, 15067u, 20068u, 24557u, 28022u, 31999u,
        38025u, 34048u, 47003u, 42514u, 53933u, 49956u, 61887u, 57398u, 6337u, 2376u, 15315u, 10842u, 24293u, 20332u, 32247u, 27774u,
        42250u, 46211u, 34328u, 38801u, 58158u, 62119u, 49212u, 53685u, 10562u, 14539u, 2640u, 7129u, 28518u, 32495u, 19572u, 24061u,
        46475u, 41986u, 38553u, 34576u, 62383u, 57894u, 53437u, 49460u, 14787u, 10314u, 6865u, 2904u, 32743u, 28270u, 23797u, 19836u,
        50700u, 55173u, 58654u, 62615u, 32808u, 37281u, 41786u, 45747u, 19012u, 23501u, 26966u, 30943u, 3168u, 7657u, 12146u, 16123u,
        54925u, 50948u, 62879u, 58390u, 37033u, 33056u, 46011u, 41522u, 23237u, 19276u, 31191u, 26718u, 7393u, 3432u, 16371u, 11898u,
        59150u, 63111u, 50204u, 54677u, 41258u, 45219u, 33336u, 37809u, 27462u, 31439u, 18516u, 23005u, 11618u, 15595u, 3696u, 8185u,
        63375u, 58886u, 54429u, 50452u, 45483u, 40994u, 37561u, 33584u, 31687u, 27214u, 22741u, 18780u, 15843u, 11370u, 7921u, 3960u };
    result = lent1;
    return result;
}

/* remainder::with_byte */
static uint16_t remainder__with_byte(uint16_t v1, uint8_t v2)
{
    uint16_t result;
    uint16_t v3;
    uint16_t v4;
    const uint16_t *v5;
    usize v6;
    usize v7;
    const uint16_t *v8;
    const uint16_t *v9;
    uint16_t v10;
    uint16_t v11;
    v4 = (uint16_t)v2;
    v3 = (uint16_t)((uint32_t)v1 ^ (uint32_t)v4);
    v5 = remainder__table();
    v4 = (uint16_t)((uint32_t)v3 % (uint32_t)256u);
    v6 = (usize)v4;
    v7 = v6 * 2u;
    v8 = v5;
    v9 = v8 + v7 / 2u;
    v10 = *v9;
    v11 = (uint16_t)((uint32_t)v3 / (uint32_t)256u);
    result = (uint16_t)((uint32_t)v10 ^ (uint32_t)v11);
    return result;
}

/* remainder::remainder */
static uint16_t remainder__remainder(slice_u8 v1)
{
    uint16_t result;
    uint16_t v2;
    usize v3;
    const uint8_t *v4;
    usize v5;
    bool v6;
    const uint8_t *v7;
    uint8_t v8;
    v2 = 0u;
    v3 = 0u;
    v5 = v1.length;
    for (;;) {
        v6 = v3 < v5;
        if (!v6) {
            break;
        }
        v7 = v1.at + v3;
        v4 = v7;
        v8 = *v4;
        v2 = remainder__with_byte(v2, v8);
        v3 = v3 + 1u;
    }
    result = v2;
    return result;
}

/* frames::check_right */
static bool frames__check_right(slice_u8 v1)
{
    bool result;
    usize v2;
    usize v3;
    uint16_t v4;
    const uint8_t *v5;
    slice_u8 v6;
    uint16_t v7;
    v3 = v1.length;
    v2 = v3 - 2u;
    v5 = v1.at;
    v6 = (slice_u8){ .at = v5, .length = v2 };
    v4 = remainder__remainder(v6);
    v7 = primitives__little_endian_at(v1, v2);
    result = v4 == v7;
    return result;
}

/* frames::U16FromFault::from */
static uint16_t frames__U16FromFault__from(frames__Fault v1)
{
    uint16_t result;
    uint16_t v2;
    switch (v1.tag) {
    case 0u:
        v2 = 1u;
        break;
    case 1u:
        v2 = 2u;
        break;
    case 2u:
    default:
        v2 = 3u;
        break;
    }
    result = v2;
    return result;
}

/* frames::U16FromKind::from */
static uint16_t frames__U16FromKind__from(frames__Kind v1)
{
    uint16_t result;
    uint16_t v2;
    switch (v1.tag) {
    case 0u:
        v2 = 1u;
        break;
    case 1u:
    default:
        v2 = 2u;
        break;
    }
    result = v2;
    return result;
}

/* frames::U8FromWriteRefusal::from */
static uint8_t frames__U8FromWriteRefusal__from(frames__WriteRefusal v1)
{
    uint8_t result;
    uint8_t v2;
    switch (v1.tag) {
    case 0u:
        v2 = 1u;
        break;
    case 1u:
    default:
        v2 = 2u;
        break;
    }
    result = v2;
    return result;
}

/* frames::kind_numbered */
static core__option__Option__frames__Kind frames__kind_numbered(uint16_t v1)
{
    core__option__Option__frames__Kind result;
    core__option__Option__frames__Kind v2;
    frames__Kind v3;
    frames__Kind v4;
    switch (v1) {
    case 1u:
        v3 = (frames__Kind){ .tag = 0u };
        v2 = (core__option__Option__frames__Kind){ .tag = 1u, .as.v1.f1 = v3 };
        break;
    case 2u:
        v4 = (frames__Kind){ .tag = 1u };
        v2 = (core__option__Option__frames__Kind){ .tag = 1u, .as.v1.f1 = v4 };
        break;
    default:
        v2 = (core__option__Option__frames__Kind){ .tag = 0u };
        break;
    }
    result = v2;
    return result;
}

/* frames::judge_head */
static frames__Step frames__judge_head(slice_u8 v1)
{
    frames__Step result;
    usize v2;
    usize v3;
    frames__Kind v4;
    bool v5;
    uint16_t v6;
    frames__FrameLength v7;
    uint16_t v8;
    bool v9;
    bool v10;
    bool v11;
    frames__Fault v12;
    uint16_t v13;
    frames__FrameLength v14;
    core__option__Option__frames__Kind v15;
    frames__Fault v16;
    uint16_t v17;
    frames__FrameLength v18;
    usize v19;
    frames__BodyLength v20;
    v2 = v1.length;
    v5 = v2 < 2u;
    if (v5) {
        v6 = (uint16_t)v2;
        v7 = (frames__FrameLength){ .f0 = v6 };
        result = (frames__Step){ .tag = 1u, .as.v1.f1 = v7 };
        return result;
    }
    v8 = primitives__little_endian_at(v1, 0u);
    v3 = (usize)v8;
    v10 = v3 < 6u;
    if (!v10) {
        v10 = 1563u < v3;
        v9 = v10;
        if (!v9) {
            v9 = v3 < v2;
            v11 = v9;
            if (!v11) {
                goto end2;
            }
        }
    }
    v12 = (frames__Fault){ .tag = 0u };
    result = (frames__Step){ .tag = 2u, .as.v2.f1 = v12 };
    return result;
    goto end1;
    end2:;
    end1:;
    v5 = v2 < 4u;
    if (v5) {
        v13 = (uint16_t)v2;
        v14 = (frames__FrameLength){ .f0 = v13 };
        result = (frames__Step){ .tag = 1u, .as.v1.f1 = v14 };
        return result;
    }
    v8 = primitives__little_endian_at(v1, 2u);
    v15 = frames__kind_numbered(v8);
    switch (v15.tag) {
    case 1u:
        v4 = v15.as.v1.f1;
        break;
    case 0u:
    default:
        v16 = (frames__Fault){ .tag = 1u };
        result = (frames__Step){ .tag = 2u, .as.v2.f1 = v16 };
        return result;
    }
    v5 = v2 < v3;
    if (v5) {
        v17 = (uint16_t)v2;
        v18 = (frames__FrameLength){ .f0 = v17 };
        result = (frames__Step){ .tag = 1u, .as.v1.f1 = v18 };
        return result;
    }
    v19 = v2 - 6u;
    v8 = (uint16_t)v19;
    v20 = (frames__BodyLength){ .f0 = v8 };
    result = (frames__Step){ .tag = 0u, .as.v0.f1 = v4, .as.v0.f2 = v20 };
    return result;
}

/* frames::judge */
static frames__Step frames__judge(slice_u8 v1)
{
    frames__Step result;
    frames__Kind v2;
    frames__BodyLength v3;
    frames__Step v4;
    frames__Step v5;
    frames__Step v6;
    bool v7;
    frames__Fault v8;
    v5 = frames__judge_head(v1);
    switch (v5.tag) {
    case 0u:
        v2 = v5.as.v0.f1;
        v3 = v5.as.v0.f2;
        v7 = frames__check_right(v1);
        if (v7) {
            v6 = (frames__Step){ .tag = 0u, .as.v0.f1 = v2, .as.v0.f2 = v3 };
            goto end1;
        }
        v8 = (frames__Fault){ .tag = 2u };
        v6 = (frames__Step){ .tag = 2u, .as.v2.f1 = v8 };
        end1:;
        break;
    case 1u:
    case 2u:
    default:
        v4 = v5;
        v6 = v4;
        break;
    }
    result = v6;
    return result;
}

/* frames::write_check */
static void frames__write_check(slice_mut_u8 v1, usize v2, usize v3)
{
    uint16_t v4;
    uint8_t *v5;
    usize v6;
    const uint8_t *v7;
    slice_u8 v8;
    uint8_t *v10;
    slice_mut_u8 v11;
    v5 = v1.at + v2;
    v6 = v3 - v2;
    v7 = v5;
    v8 = (slice_u8){ .at = v7, .length = v6 };
    v4 = remainder__remainder(v8);
    v10 = v1.at;
    v11 = (slice_mut_u8){ .at = v10, .length = v1.length };
    primitives__put_little_endian(v11, v3, v4);
    return;
}

/* frames::write_unchecked */
static void frames__write_unchecked(frames__Kind v1, slice_u8 v2, slice_mut_u8 v3, uint16_t v4)
{
    uint8_t *v6;
    slice_mut_u8 v7;
    uint8_t *v8;
    slice_mut_u8 v9;
    uint16_t v10;
    uint8_t *v11;
    slice_mut_u8 v12;
    v6 = v3.at;
    v7 = (slice_mut_u8){ .at = v6, .length = v3.length };
    primitives__put_little_endian(v7, 0u, v4);
    v8 = v3.at;
    v9 = (slice_mut_u8){ .at = v8, .length = v3.length };
    v10 = core__convert__AnyInto__into__frames__Kind__u16(v1);
    primitives__put_little_endian(v9, 2u, v10);
    v11 = v3.at;
    v12 = (slice_mut_u8){ .at = v11, .length = v3.length };
    primitives__put(v12, 4u, v2);
    return;
}

/* frames::write_frame */
static core__result__Result__frames__FrameLength__frames__WriteRefusal frames__write_frame(frames__Kind v1, slice_u8 v2, slice_mut_u8 v3)
{
    core__result__Result__frames__FrameLength__frames__WriteRefusal result;
    usize v4;
    uint16_t v5;
    bool v6;
    frames__WriteRefusal v7;
    usize v8;
    usize v9;
    frames__WriteRefusal v10;
    uint8_t *v12;
    slice_mut_u8 v13;
    uint8_t *v14;
    slice_mut_u8 v15;
    frames__FrameLength v16;
    v4 = v2.length;
    v6 = 1557u < v4;
    if (v6) {
        v7 = (frames__WriteRefusal){ .tag = 0u };
        result = (core__result__Result__frames__FrameLength__frames__WriteRefusal){ .tag = 1u, .as.v1.f1 = v7 };
        return result;
    }
    v8 = v3.length;
    v9 = v4 + 6u;
    v6 = v8 < v9;
    if (v6) {
        v10 = (frames__WriteRefusal){ .tag = 1u };
        result = (core__result__Result__frames__FrameLength__frames__WriteRefusal){ .tag = 1u, .as.v1.f1 = v10 };
        return result;
    }
    v8 = v4 + 6u;
    v5 = (uint16_t)v8;
    v12 = v3.at;
    v13 = (slice_mut_u8){ .at = v12, .length = v3.length };
    frames__write_unchecked(v1, v2, v13, v5);
    v14 = v3.at;
    v15 = (slice_mut_u8){ .at = v14, .length = v3.length };
    v9 = v4 + 4u;
    frames__write_check(v15, 0u, v9);
    v16 = (frames__FrameLength){ .f0 = v5 };
    result = (core__result__Result__frames__FrameLength__frames__WriteRefusal){ .tag = 0u, .as.v0.f1 = v16 };
    return result;
}

/* frames::write_for_host */
static uint8_t frames__write_for_host(frames__Kind v1, slice_u8 v2, slice_mut_u8 v3)
{
    uint8_t result;
    frames__WriteRefusal v4;
    core__result__Result__frames__FrameLength__frames__WriteRefusal v5;
    uint8_t *v6;
    slice_mut_u8 v7;
    uint8_t v8;
    v6 = v3.at;
    v7 = (slice_mut_u8){ .at = v6, .length = v3.length };
    v5 = frames__write_frame(v1, v2, v7);
    switch (v5.tag) {
    case 0u:
        v8 = 0u;
        break;
    case 1u:
    default:
        v4 = v5.as.v1.f1;
        v8 = core__convert__AnyInto__into__frames__WriteRefusal__u8(v4);
        break;
    }
    result = v8;
    return result;
}

/* dock::HostFedFromFed::from */
static dock_fed dock__HostFedFromFed__from(dock__Fed v1)
{
    dock_fed result;
    dock_fed v2;
    frames__Kind v3;
    frames__BodyLength v4;
    dock_stream v5;
    dock__Stream v6;
    uint16_t v7;
    dock_stream v8;
    usize v9;
    v6 = v1.f0;
    v5 = core__convert__AnyInto__into__dock__Stream__dock__HostStream(v6);
    v2 = (dock_fed){ .stream = v5, .kind = 0u, .size = 0u, .taken = (size_t)v1.f2 };
    switch (v1.f1.tag) {
    case 0u:
        v3 = v1.f1.as.v0.f1;
        v4 = v1.f1.as.v0.f2;
        break;
    case 1u:
    case 2u:
    default:
        result = v2;
        return result;
    }
    v7 = core__convert__AnyInto__into__frames__Kind__u16(v3);
    v8 = v2.stream;
    v9 = (usize)v2.taken;
    result = (dock_fed){ .stream = v8, .kind = v7, .size = v4.f0, .taken = (size_t)v9 };
    return result;
}

/* dock::HostStreamFromStream::from */
static dock_stream dock__HostStreamFromStream__from(dock__Stream v1)
{
    dock_stream result;
    frames__FrameLength v2;
    frames__Fault v3;
    dock_stream v4;
    uint16_t v5;
    switch (v1.tag) {
    case 0u:
        v2 = v1.as.v0.f1;
        v4 = (dock_stream){ .collected = v2.f0, .stop = 0u };
        break;
    case 1u:
    default:
        v3 = v1.as.v1.f1;
        v5 = core__convert__AnyInto__into__frames__Fault__u16(v3);
        v4 = (dock_stream){ .collected = 0u, .stop = v5 };
        break;
    }
    result = v4;
    return result;
}

/* dock::StreamFromHostStream::from */
static dock__Stream dock__StreamFromHostStream__from(dock_stream v1)
{
    dock__Stream result;
    bool v2;
    frames__FrameLength v3;
    frames__Fault v4;
    frames__Fault v5;
    frames__Fault v6;
    v2 = v1.stop == 0u;
    if (v2) {
        v3 = (frames__FrameLength){ .f0 = v1.collected };
        result = (dock__Stream){ .tag = 0u, .as.v0.f1 = v3 };
        return result;
    }
    v2 = v1.stop == 2u;
    if (v2) {
        v4 = (frames__Fault){ .tag = 1u };
        result = (dock__Stream){ .tag = 1u, .as.v1.f1 = v4 };
        return result;
    }
    v2 = v1.stop == 3u;
    if (v2) {
        v5 = (frames__Fault){ .tag = 2u };
        result = (dock__Stream){ .tag = 1u, .as.v1.f1 = v5 };
        return result;
    }
    v6 = (frames__Fault){ .tag = 0u };
    result = (dock__Stream){ .tag = 1u, .as.v1.f1 = v6 };
    return result;
}

/* dock::next_judged */
static usize dock__next_judged(slice_u8 v1)
{
    usize result;
    usize v2;
    frames__Step v3;
    usize v4;
    bool v5;
    uint16_t v6;
    v2 = v1.length;
    v3 = frames__judge_head(v1);
    switch (v3.tag) {
    case 1u:
        break;
    case 0u:
    case 2u:
    default:
        result = v2 + 1u;
        return result;
    }
    v5 = v2 < 2u;
    if (v5) {
        v4 = 2u;
        goto end1;
    }
    v5 = v2 < 4u;
    if (v5) {
        v4 = 4u;
        goto end1;
    }
    v6 = primitives__little_endian_at(v1, 0u);
    v4 = (usize)v6;
    end1:;
    result = v4;
    return result;
}

/* dock::head_judged */
static usize dock__head_judged(slice_u8 v1)
{
    usize result;
    usize v2;
    bool v3;
    const uint8_t *v4;
    slice_u8 v5;
    v2 = v1.length;
    v3 = v2 < 4u;
    if (v3) {
        result = 0u;
        return result;
    }
    v4 = v1.at;
    v5 = (slice_u8){ .at = v4, .length = 4u };
    result = dock__next_judged(v5);
    return result;
}

/* dock::put_behind */
static frames__Step dock__put_behind(usize v1, slice_mut_u8 v2, slice_u8 v3)
{
    frames__Step result;
    usize v4;
    uint8_t *v6;
    slice_mut_u8 v7;
    usize v8;
    const uint8_t *v9;
    slice_u8 v10;
    v6 = v2.at;
    v7 = (slice_mut_u8){ .at = v6, .length = v2.length };
    primitives__put(v7, v1, v3);
    v8 = v3.length;
    v4 = v1 + v8;
    v9 = v2.at;
    v10 = (slice_u8){ .at = v9, .length = v4 };
    result = frames__judge(v10);
    return result;
}

/* dock::reach */
static usize dock__reach(usize v1, slice_u8 v2, slice_u8 v3)
{
    usize result;
    usize v4;
    bool v5;
    bool v6;
    const uint8_t *v7;
    slice_u8 v8;
    v4 = dock__head_judged(v3);
    v5 = v1 == 0u;
    if (v5) {
        v5 = 6u <= v4;
        v6 = v5;
        if (v6) {
            result = v4;
            return result;
            goto end1;
        }
    }
    end1:;
    v7 = v2.at;
    v8 = (slice_u8){ .at = v7, .length = v1 };
    result = dock__next_judged(v8);
    return result;
}

/* dock::collect */
static dock__Part dock__collect(usize v1, uint8_t *v2, slice_u8 v3)
{
    dock__Part result;
    usize v4;
    bool v5;
    frames__Fault v6;
    frames__Step v7;
    usize v8;
    usize v9;
    const uint8_t *v10;
    slice_u8 v11;
    usize v12;
    usize v13;
    frames__Step v14;
    uint8_t *v15;
    slice_mut_u8 v16;
    const uint8_t *v17;
    slice_u8 v18;
    v5 = 1563u <= v1;
    if (v5) {
        v6 = (frames__Fault){ .tag = 0u };
        v7 = (frames__Step){ .tag = 2u, .as.v2.f1 = v6 };
        v8 = v3.length;
        result = (dock__Part){ .f0 = v7, .f1 = v8 };
        return result;
    }
    v10 = v2;
    v11 = (slice_u8){ .at = v10, .length = 1563u };
    v9 = dock__reach(v1, v11, v3);
    v12 = v9 - v1;
    v13 = v3.length;
    v4 = core__int__usize__min(v12, v13);
    v15 = v2;
    v16 = (slice_mut_u8){ .at = v15, .length = 1563u };
    v17 = v3.at;
    v18 = (slice_u8){ .at = v17, .length = v4 };
    v14 = dock__put_behind(v1, v16, v18);
    result = (dock__Part){ .f0 = v14, .f1 = v4 };
    return result;
}

/* dock::Stream::resting */
static frames__Step dock__Stream__resting(dock__Stream v1)
{
    frames__Step result;
    frames__FrameLength v2;
    frames__Fault v3;
    frames__Step v4;
    switch (v1.tag) {
    case 0u:
        v2 = v1.as.v0.f1;
        v4 = (frames__Step){ .tag = 1u, .as.v1.f1 = v2 };
        break;
    case 1u:
    default:
        v3 = v1.as.v1.f1;
        v4 = (frames__Step){ .tag = 2u, .as.v2.f1 = v3 };
        break;
    }
    result = v4;
    return result;
}

/* dock::Stream::start */
static dock__Stream dock__Stream__start(void)
{
    dock__Stream result;
    frames__FrameLength v1;
    v1 = (frames__FrameLength){ .f0 = 0u };
    result = (dock__Stream){ .tag = 0u, .as.v0.f1 = v1 };
    return result;
}

/* dock::Stream::after */
static dock__Stream dock__Stream__after(frames__Step v1)
{
    dock__Stream result;
    frames__FrameLength v2;
    frames__Fault v3;
    dock__Stream v4;
    switch (v1.tag) {
    case 0u:
        v4 = dock__Stream__start();
        break;
    case 1u:
        v2 = v1.as.v1.f1;
        v4 = (dock__Stream){ .tag = 0u, .as.v0.f1 = v2 };
        break;
    case 2u:
    default:
        v3 = v1.as.v2.f1;
        v4 = (dock__Stream){ .tag = 1u, .as.v1.f1 = v3 };
        break;
    }
    result = v4;
    return result;
}

/* dock::start_for_host */
static dock_stream dock__start_for_host(void)
{
    dock_stream result;
    dock__Stream v1;
    v1 = dock__Stream__start();
    result = dock__HostStreamFromStream__from(v1);
    return result;
}

/* dock::Stream::take_part */
static dock__Part dock__Stream__take_part(dock__Stream v1, uint8_t *v2, slice_u8 v3)
{
    dock__Part result;
    frames__FrameLength v4;
    frames__Fault v5;
    dock__Part v6;
    usize v7;
    uint8_t *v8;
    frames__Step v9;
    usize v10;
    switch (v1.tag) {
    case 0u:
        v4 = v1.as.v0.f1;
        v7 = (usize)v4.f0;
        v8 = v2;
        v6 = dock__collect(v7, v8, v3);
        break;
    case 1u:
    default:
        v5 = v1.as.v1.f1;
        v9 = (frames__Step){ .tag = 2u, .as.v2.f1 = v5 };
        v10 = v3.length;
        v6 = (dock__Part){ .f0 = v9, .f1 = v10 };
        break;
    }
    result = v6;
    return result;
}

/* dock::Stream::feed */
static dock__Fed dock__Stream__feed(dock__Stream v1, uint8_t *v2, slice_u8 v3)
{
    dock__Fed result;
    dock__Stream v4;
    usize v5;
    dock__Part v6;
    usize v7;
    bool v8;
    uint8_t *v9;
    const uint8_t *v10;
    const uint8_t *v11;
    slice_u8 v12;
    frames__Step v13;
    frames__Step v14;
    frames__Step v15;
    v4 = v1;
    v5 = 0u;
    for (;;) {
        v7 = v3.length;
        v8 = v5 < v7;
        if (!v8) {
            break;
        }
        v9 = v2;
        v10 = v3.at + v5;
        v7 = v3.length - v5;
        v11 = v10;
        v12 = (slice_u8){ .at = v11, .length = v7 };
        v6 = dock__Stream__take_part(v4, v9, v12);
        v13 = v6.f0;
        v4 = dock__Stream__after(v13);
        v5 = v5 + v6.f1;
        switch (v6.f0.tag) {
        case 0u:
            break;
        case 1u:
        case 2u:
        default:
            continue;
        }
        v14 = v6.f0;
        result = (dock__Fed){ .f0 = v4, .f1 = v14, .f2 = v5 };
        return result;
    }
    v15 = dock__Stream__resting(v4);
    result = (dock__Fed){ .f0 = v4, .f1 = v15, .f2 = v5 };
    return result;
}

/* dock::feed_for_host */
static dock_fed dock__feed_for_host(dock_stream v1, uint8_t *v2, slice_u8 v3)
{
    dock_fed result;
    dock__Fed v4;
    dock__Stream v5;
    uint8_t *v6;
    v5 = dock__StreamFromHostStream__from(v1);
    v6 = v2;
    v4 = dock__Stream__feed(v5, v6, v3);
    result = dock__HostFedFromFed__from(v4);
    return result;
}

/* firmware::dock_feed */
static dock_fed firmware__dock_feed(dock_stream v1, uint8_t *v2, slice_u8 v3)
{
    dock_fed result;
    uint8_t *v4;
    v4 = v2;
    result = dock__feed_for_host(v1, v4, v3);
    return result;
}

/* firmware::dock_start */
static dock_stream firmware__dock_start(void)
{
    dock_stream result;
    result = dock__start_for_host();
    return result;
}

/* firmware::dock_write_command */
static uint8_t firmware__dock_write_command(slice_u8 v1, slice_mut_u8 v2)
{
    uint8_t result;
    frames__Kind v3;
    uint8_t *v4;
    slice_mut_u8 v5;
    v3 = (frames__Kind){ .tag = 0u };
    v4 = v2.at;
    v5 = (slice_mut_u8){ .at = v4, .length = v2.length };
    result = frames__write_for_host(v3, v1, v5);
    return result;
}

/* firmware::dock_write_response */
static uint8_t firmware__dock_write_response(slice_u8 v1, slice_mut_u8 v2)
{
    uint8_t result;
    frames__Kind v3;
    uint8_t *v4;
    slice_mut_u8 v5;
    v3 = (frames__Kind){ .tag = 1u };
    v4 = v2.at;
    v5 = (slice_mut_u8){ .at = v4, .length = v2.length };
    result = frames__write_for_host(v3, v1, v5);
    return result;
}

/* firmware::dock_start for C */
dock_stream dock_start(void)
{
    return firmware__dock_start();
}

/* firmware::dock_feed for C */
dock_fed dock_feed(dock_stream stream, dock_frame *frame, const uint8_t *piece, size_t piece_len)
{
    size_t nothing = 0; /* lent in place of NULL */
    return firmware__dock_feed(stream,
        *frame,
        (slice_u8){ .at = piece != NULL ? piece : (const uint8_t *)&nothing, .length = piece_len });
}

/* firmware::dock_write_command for C */
uint8_t dock_write_command(const uint8_t *body, size_t body_len, uint8_t *room, size_t room_len)
{
    size_t nothing = 0; /* lent in place of NULL */
    return firmware__dock_write_command((slice_u8){ .at = body != NULL ? body : (const uint8_t *)&nothing, .length = body_len },
        (slice_mut_u8){ .at = room != NULL ? room : (uint8_t *)&nothing, .length = room_len });
}

/* firmware::dock_write_response for C */
uint8_t dock_write_response(const uint8_t *body, size_t body_len, uint8_t *room, size_t room_len)
{
    size_t nothing = 0; /* lent in place of NULL */
    return firmware__dock_write_response((slice_u8){ .at = body != NULL ? body : (const uint8_t *)&nothing, .length = body_len },
        (slice_mut_u8){ .at = room != NULL ? room : (uint8_t *)&nothing, .length = room_len });
}
