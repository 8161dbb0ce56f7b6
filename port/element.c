/*
 * The secure element's object store, in portable C99: what element.h declares.
 *
 * Made by port/translate (`make c`) from the MIR that the proved crates hold, with rattle-kit-13f logic dac8208d650f15bf.
 * Do not edit it. Each function but the last ones is a function of that MIR, a statement for a statement.
 *
 * That MIR is proved for every input. Not proved: this translation of it, the C compiler, and sizes behind references, which lie in C as
 * size_t and are read as the 64 bits of the proofs. docs/INTEGRATION.md says under Ports what is compared instead.
 */
#include "element.h"

#include <stdbool.h>
#include <stddef.h>
#include <stdint.h>

/* A size has 64 bits, as in the proofs, on every controller. */
typedef uint64_t usize;

typedef struct slice_u8 {
    const uint8_t *at;
    usize length;
} slice_u8;

/* core::cmp::slices::ElementMismatch<u8> */
typedef struct core__cmp__slices__ElementMismatch__u8 {
    slice_u8 f0;
    slice_u8 f1;
} core__cmp__slices__ElementMismatch__u8;

typedef struct array_u8_4 {
    uint8_t at[4];
} array_u8_4;

typedef struct slice_array_u8_4 {
    const uint8_t *at;
    usize length;
} slice_array_u8_4;

/* (,)<&[[u8; 4]], &[u8]> */
typedef struct tuple2__slice_array_u8_4__slice_u8 {
    slice_array_u8_4 f0;
    slice_u8 f1;
} tuple2__slice_array_u8_4__slice_u8;

/* core::ops::ControlFlow<core::option::NoValue, u64> */
typedef struct core__ops__ControlFlow__NoValue__usize {
    uint8_t tag;
    union {
        struct {
            usize f1;
        } v0;
    } as;
} core__ops__ControlFlow__NoValue__usize;

/* core::option::Option<u64> */
typedef struct core__option__Option__usize {
    uint8_t tag;
    union {
        struct {
            usize f1;
        } v1;
    } as;
} core__option__Option__usize;

/* rules::Refusal */
typedef struct rules__Refusal {
    uint8_t tag;
} rules__Refusal;

/* core::result::ErrResidual<rules::Refusal> */
typedef struct core__result__ErrResidual__rules__Refusal {
    rules__Refusal f0;
} core__result__ErrResidual__rules__Refusal;

/* core::ops::ControlFlow<core::result::ErrResidual<rules::Refusal>, ()> */
typedef struct core__ops__ControlFlow__ErrResidual__rules__Refusal__unit {
    uint8_t tag;
    union {
        struct {
            core__result__ErrResidual__rules__Refusal f1;
        } v1;
    } as;
} core__ops__ControlFlow__ErrResidual__rules__Refusal__unit;

/* core::result::Result<(), rules::Refusal> */
typedef struct core__result__Result__unit__rules__Refusal {
    uint8_t tag;
    union {
        struct {
            rules__Refusal f1;
        } v1;
    } as;
} core__result__Result__unit__rules__Refusal;

/* core::iter::slices::Chunks<u8> */
typedef struct core__iter__slices__Chunks__u8 {
    slice_u8 f0;
    usize f1;
} core__iter__slices__Chunks__u8;

/* core::result::Result<u8, core::alloc::AllocError> */
typedef struct core__result__Result__u8__AllocError {
    uint8_t tag;
    union {
        struct {
            uint8_t f1;
        } v0;
    } as;
} core__result__Result__u8__AllocError;

typedef struct array_u8_2 {
    uint8_t at[2];
} array_u8_2;

/* rules::ObjectNumber */
typedef struct rules__ObjectNumber {
    uint16_t f0;
} rules__ObjectNumber;

/* rules::Direction */
typedef struct rules__Direction {
    uint8_t tag;
} rules__Direction;

/* rules::Kind */
typedef struct rules__Kind {
    uint8_t tag;
    union {
        struct {
            rules__Direction f1;
        } v1;
    } as;
} rules__Kind;

/* judge::Target */
typedef struct judge__Target {
    uint8_t tag;
    union {
        struct {
            rules__ObjectNumber f1;
            rules__Kind f2;
            uint8_t f3;
        } v0;
        struct {
            usize f1;
        } v1;
    } as;
} judge__Target;

/* core::option::Option<judge::Target> */
typedef struct core__option__Option__judge__Target {
    uint8_t tag;
    union {
        struct {
            judge__Target f1;
        } v1;
    } as;
} core__option__Option__judge__Target;

/* core::option::Option<&size_t> */
typedef struct core__option__Option__ref_size {
    uint8_t tag;
    union {
        struct {
            const size_t *f1;
        } v1;
    } as;
} core__option__Option__ref_size;

typedef struct slice_usize {
    const size_t *at;
    usize length;
} slice_usize;

/* rules::Session */
typedef struct rules__Session {
    bool f0;
    uint8_t f1;
    uint8_t f2;
    uint8_t f3;
} rules__Session;

/* core::option::Option<&[u8]> */
typedef struct core__option__Option__slice_u8 {
    uint8_t tag;
    union {
        struct {
            slice_u8 f1;
        } v1;
    } as;
} core__option__Option__slice_u8;

typedef struct slice_mut_u8 {
    uint8_t *at;
    usize length;
} slice_mut_u8;

/* core::option::Option<size_t> */
typedef struct core__option__Option__size {
    uint8_t tag;
    union {
        struct {
            usize f1;
        } v1;
    } as;
} core__option__Option__size;

/* rules::UnknownKind */
typedef struct rules__UnknownKind {
    uint16_t f0;
} rules__UnknownKind;

/* core::result::Result<rules::Kind, rules::UnknownKind> */
typedef struct core__result__Result__rules__Kind__rules__UnknownKind {
    uint8_t tag;
    union {
        struct {
            rules__Kind f1;
        } v0;
        struct {
            rules__UnknownKind f1;
        } v1;
    } as;
} core__result__Result__rules__Kind__rules__UnknownKind;

/* rules::Offset */
typedef struct rules__Offset {
    usize f0;
} rules__Offset;

/* rules::Length */
typedef struct rules__Length {
    usize f0;
} rules__Length;

/* reader::MetadataReader */
typedef struct reader__MetadataReader {
    slice_u8 f0;
    usize f1;
} reader__MetadataReader;

/* reader::Field */
typedef struct reader__Field {
    uint8_t f0;
    slice_u8 f1;
} reader__Field;

/* core::result::Result<reader::Field, reader::Malformed> */
typedef struct core__result__Result__reader__Field__reader__Malformed {
    uint8_t tag;
    union {
        struct {
            reader__Field f1;
        } v0;
    } as;
} core__result__Result__reader__Field__reader__Malformed;

/* core::option::Option<core::result::Result<reader::Field, reader::Malformed>> */
typedef struct core__option__Option__Result__reader__Field__reader__Malformed {
    uint8_t tag;
    union {
        struct {
            core__result__Result__reader__Field__reader__Malformed f1;
        } v1;
    } as;
} core__option__Option__Result__reader__Field__reader__Malformed;

/* reader::Step */
typedef struct reader__Step {
    core__option__Option__Result__reader__Field__reader__Malformed f0;
    usize f1;
} reader__Step;

/* record::StoredObject */
typedef struct record__StoredObject {
    slice_u8 f0;
    usize f1;
} record__StoredObject;

/* rules::Slot */
typedef struct rules__Slot {
    uint8_t tag;
} rules__Slot;

/* factory::Entry */
typedef struct factory__Entry {
    rules__ObjectNumber f0;
    rules__Length f1;
} factory__Entry;

/* core::result::Result<(), factory::WrongSize> */
typedef struct core__result__Result__unit__factory__WrongSize {
    uint8_t tag;
} core__result__Result__unit__factory__WrongSize;

typedef struct array_u8_13 {
    uint8_t at[13];
} array_u8_13;

/* rules::Sizes */
typedef struct rules__Sizes {
    usize f0;
    usize f1;
} rules__Sizes;

/* rules::Action */
typedef struct rules__Action {
    uint8_t tag;
} rules__Action;

/* rules::Row */
typedef struct rules__Row {
    uint8_t tag;
    union {
        struct {
            rules__Action f1;
        } v0;
    } as;
} rules__Row;

typedef struct array_u8_1 {
    uint8_t at[1];
} array_u8_1;

/* core::option::Option<u16> */
typedef struct core__option__Option__u16 {
    uint8_t tag;
    union {
        struct {
            uint16_t f1;
        } v1;
    } as;
} core__option__Option__u16;

/* access::Sight */
typedef struct access__Sight {
    slice_u8 f0;
    rules__Session f1;
    uint8_t f2;
} access__Sight;

typedef struct array_u16_7 {
    uint16_t at[7];
} array_u16_7;

/* access::Counters */
typedef struct access__Counters {
    usize f0;
    array_u16_7 f1;
} access__Counters;

typedef struct slice_u16 {
    const uint16_t *at;
    usize length;
} slice_u16;

/* core::option::Option<access::Counters> */
typedef struct core__option__Option__access__Counters {
    uint8_t tag;
    union {
        struct {
            access__Counters f1;
        } v1;
    } as;
} core__option__Option__access__Counters;

/* judge::Judgment */
typedef struct judge__Judgment {
    core__result__Result__unit__rules__Refusal f0;
    access__Counters f1;
} judge__Judgment;

/* element::Answer */
typedef struct element__Answer {
    uint8_t f0;
    rules__Session f1;
} element__Answer;

static bool core__slice__scan__any_in_run__ElementMismatch__u8(const core__cmp__slices__ElementMismatch__u8 *v1, usize v2, usize v3);
static bool core__slice__scan__any_in_ends__ElementMismatch__u8(const core__cmp__slices__ElementMismatch__u8 *v1, usize v2, usize v3);
static bool core__slice__scan__any_in_three__ElementMismatch__u8(const core__cmp__slices__ElementMismatch__u8 *v1, usize v2);
static slice_array_u8_4 core__simd__chunks__arrays__u8__4(slice_u8 v1, usize v2);
static tuple2__slice_array_u8_4__slice_u8 core__simd__chunks__slice_T__as_chunks__u8__4(slice_u8 v1);
static slice_u8 core__array__array_N_T__as_slice__u8__16(const uint8_t *v1);
static bool core__cmp__slices__ElementMismatchPlaceTest__at__u8(const core__cmp__slices__ElementMismatch__u8 *v1, usize v2);
static core__ops__ControlFlow__NoValue__usize core__option__OptionTry__branch__usize(core__option__Option__usize v1);
static core__ops__ControlFlow__ErrResidual__rules__Refusal__unit core__result__ResultTry__branch__unit__rules__Refusal(core__result__Result__unit__rules__Refusal v1);
static core__iter__slices__Chunks__u8 core__iter__slices__slice_T__chunks__u8(slice_u8 v1, usize v2);
static core__result__Result__u8__AllocError core__clone__U8Clone__clone(const uint8_t *v1);
static bool core__cmp__numbers__U8PartialEq__eq(const uint8_t *v1, const uint8_t *v2);
static usize core__slice__scan__first_by_one__ElementMismatch__u8(const core__cmp__slices__ElementMismatch__u8 *v1, usize v2, usize v3);
static bool core__slice__scan__any_by_one__ElementMismatch__u8(const core__cmp__slices__ElementMismatch__u8 *v1, usize v2);
static bool core__slice__scan__any_in_turn__ElementMismatch__u8(const core__cmp__slices__ElementMismatch__u8 *v1, usize v2);
static rules__Refusal core__convert__AnyFrom__from__rules__Refusal(rules__Refusal v1);
static uint16_t core__int__u16__from_be_bytes(array_u8_2 v1);
static uint32_t core__int__u32__from_be_bytes(array_u8_4 v1);
static uint16_t core__int__u16__from_le_bytes(array_u8_2 v1);
static uint32_t core__int__u32__from_le_bytes(array_u8_4 v1);
static core__option__Option__judge__Target core__option__OptionFromResidualNoValue__from_residual__judge__Target(void);
static core__result__Result__unit__rules__Refusal core__result__ResultFromResidualErrResidual__from_residual__unit__rules__Refusal__rules__Refusal(core__result__ErrResidual__rules__Refusal v1);
static core__option__Option__ref_size core__slice__slice_T__get__size__usize__ref_usize(slice_usize v1, usize v2);
static rules__Session core__convert__AnyInto__into__firmware__HostSession__rules__Session(element_session v1);
static core__iter__slices__Chunks__u8 core__iter__traits__AnyIntoIterator__into_iter__Chunks__u8__slice_u8(core__iter__slices__Chunks__u8 v1);
static bool core__slice__slice_T__is_empty__u8(slice_u8 v1);
static uint32_t core__int__u32__max(uint32_t v1, uint32_t v2);
static uint8_t core__int__u8__max(uint8_t v1, uint8_t v2);
static usize core__int__usize__max(usize v1, usize v2);
static uint32_t core__int__u32__min(uint32_t v1, uint32_t v2);
static usize core__int__usize__min(usize v1, usize v2);
static bool core__slice__scan__any_in_quarters__ElementMismatch__u8(const core__cmp__slices__ElementMismatch__u8 *v1, usize v2, usize v3);
static bool core__cmp__PartialEq__ne__slice_u8(const slice_u8 *v1, const slice_u8 *v2);
static core__option__Option__slice_u8 core__iter__slices__ChunksIterator__next__u8(core__iter__slices__Chunks__u8 *v1);
static core__option__Option__ref_size core__slice__index__UsizeSliceIndexRefSlice__pick__size(usize v1, slice_usize v2);
static uint32_t core__int__u32__saturating_add(uint32_t v1, uint32_t v2);
static uint32_t core__int__u32__saturating_sub(uint32_t v1, uint32_t v2);
static usize core__int__usize__saturating_sub(usize v1, usize v2);
static usize core__mem__size_of_param__u8(void);
static usize core__slice__scan__group__u8(void);
static usize core__slice__scan__skip_groups__ElementMismatch__u8(const core__cmp__slices__ElementMismatch__u8 *v1, usize v2, usize v3, usize v4);
static bool core__slice__scan__any_by_groups__ElementMismatch__u8(const core__cmp__slices__ElementMismatch__u8 *v1, usize v2, usize v3);
static bool core__cmp__slices__all_equal__u8(slice_u8 v1, slice_u8 v2);
static bool core__cmp__slices__groups_equal__u8(slice_u8 v1, slice_u8 v2);
static bool core__cmp__slices__parts_equal__u8(slice_u8 v1, slice_u8 v2);
static bool core__cmp__slices__slices_equal__u8(slice_u8 v1, slice_u8 v2);
static bool core__cmp__slices__RefSlicePartialEq__eq__u8(const slice_u8 *v1, const slice_u8 *v2);
static core__option__Option__usize core__bool__then_some__usize(bool v1, usize v2);
static array_u8_2 core__int__u16__to_be_bytes(uint16_t v1);
static array_u8_4 core__int__u32__to_be_bytes(uint32_t v1);
static array_u8_2 core__int__u16__to_le_bytes(uint16_t v1);
static array_u8_4 core__int__u32__to_le_bytes(uint32_t v1);
static void core__assertions__unreachable(void);
static uint8_t core__clone__surely__u8(const uint8_t *v1);
static void core__slice__edits__slice_T__fill__u8(slice_mut_u8 v1, uint8_t v2);
static const size_t *core__option__Option__unwrap__ref_size(core__option__Option__ref_size v1);
static core__option__Option__size core__option__more__Option_ref_T__copied__size(core__option__Option__ref_size v1);
static usize core__option__Option__unwrap_or__size(core__option__Option__size v1, usize v2);
static uint8_t rules__U8FromRefusal__from(rules__Refusal v1);
static core__result__Result__unit__rules__Refusal rules__refuse_if(bool v1, rules__Refusal v2);
static core__result__Result__rules__Kind__rules__UnknownKind rules__KindTryFromU16__try_from(uint16_t v1);
static bool bounds__fits(rules__Offset v1, rules__Length v2, rules__Length v3);
static rules__Length bounds__shown_length(rules__Offset v1, rules__Length v2, rules__Length v3);
static bool bounds__too_long(rules__Length v1, usize v2);
static core__result__Result__unit__rules__Refusal bounds__fitting(rules__Length v1, usize v2);
static core__result__Result__unit__rules__Refusal bounds__judge_read(rules__Offset v1, rules__Length v2, rules__Length v3, usize v4);
static void primitives__Destruct__none__drop__u8(uint8_t v1);
static bool primitives__all_zero(slice_u8 v1);
static uint32_t primitives__big_endian_4_at(slice_u8 v1, usize v2);
static uint16_t primitives__big_endian_at(slice_u8 v1, usize v2);
static void primitives__clear(slice_mut_u8 v1);
static uint32_t primitives__little_endian_4_at(slice_u8 v1, usize v2);
static uint16_t primitives__little_endian_at(slice_u8 v1, usize v2);
static void primitives__put(slice_mut_u8 v1, usize v2, slice_u8 v3);
static void primitives__put_alone(slice_mut_u8 v1, usize v2, slice_u8 v3);
static void primitives__put_big_endian_4(slice_mut_u8 v1, usize v2, uint32_t v3);
static void primitives__put_little_endian(slice_mut_u8 v1, usize v2, uint16_t v3);
static void primitives__put_little_endian_4(slice_mut_u8 v1, usize v2, uint32_t v3);
static void primitives__put_zeros(slice_mut_u8 v1, usize v2, usize v3);
static uint32_t counter__counted(rules__Direction v1, uint32_t v2, uint32_t v3, uint32_t v4);
static void counter__count(slice_mut_u8 v1, rules__Direction v2, uint8_t v3);
static bool counter__exhausted(slice_u8 v1, rules__Direction v2);
static void expression__Destruct__none__drop__usize(usize v1);
static core__option__Option__usize expression__groups_after(uint8_t v1, usize v2);
static bool expression__is_state(uint8_t v1);
static bool expression__condition_allowed(slice_u8 v1, usize v2);
static bool expression__may_become(uint8_t v1, uint8_t v2);
static bool expression__single(uint8_t v1);
static bool expression__well_formed(slice_u8 v1);
static core__option__Option__usize queue__fare_end(slice_u8 v1, uint32_t v2);
static bool queue__fare_ok(slice_u8 v1, usize v2, uint32_t v3);
static uint32_t queue__first_number(slice_u8 v1);
static bool queue__check(slice_u8 v1);
static void queue__move_down(slice_mut_u8 v1, usize v2, usize v3, usize v4);
static rules__Length queue__drop_front(slice_mut_u8 v1, rules__Length v2, rules__Offset v3);
static rules__Length queue__acknowledge(slice_mut_u8 v1, rules__Length v2, uint32_t v3);
static uint32_t queue__next_number(slice_u8 v1);
static bool queue__is_present(slice_u8 v1, uint32_t v2);
static void queue__put_fare(slice_mut_u8 v1, usize v2, uint32_t v3, slice_u8 v4);
static rules__Length queue__append(slice_mut_u8 v1, rules__Length v2, slice_u8 v3);
static reader__MetadataReader reader__MetadataReader__new(slice_u8 v1, usize v2);
static reader__Step reader__step_from(slice_u8 v1, usize v2);
static core__option__Option__Result__reader__Field__reader__Malformed reader__MetadataReader__advance(reader__MetadataReader *v1);
static record__StoredObject record__StoredObject__at(slice_u8 v1, usize v2);
static slice_u8 record__counted(slice_u8 v1, usize v2);
static bool record__counter_sizes(rules__Length v1, slice_u8 v2);
static slice_u8 record__StoredObject__data(const record__StoredObject *v1, rules__Offset v2, rules__Length v3);
static usize record__data_end(slice_u8 v1, usize v2);
static bool record__filled_by_condition(slice_u8 v1);
static bool record__filled_by_one(slice_u8 v1);
static bool record__in_session(rules__ObjectNumber v1);
static bool record__head_ok(slice_u8 v1);
static rules__Kind record__StoredObject__kind(const record__StoredObject *v1);
static rules__Direction record__StoredObject__direction(const record__StoredObject *v1);
static bool record__StoredObject__is_counter(const record__StoredObject *v1);
static bool record__StoredObject__is_exhausted(const record__StoredObject *v1);
static bool record__StoredObject__is_queue(const record__StoredObject *v1);
static bool record__StoredObject__is_up_counter(const record__StoredObject *v1);
static bool record__kind_ok(uint16_t v1, rules__Length v2, slice_u8 v3);
static uint8_t record__StoredObject__lcso(const record__StoredObject *v1);
static usize record__length_at(slice_u8 v1, usize v2);
static rules__Length record__StoredObject__maximum(const record__StoredObject *v1);
static rules__ObjectNumber record__number_at(slice_u8 v1, usize v2);
static void record__put_fixed(slice_mut_u8 v1, rules__ObjectNumber v2, rules__Length v3);
static void record__put_slot(slice_mut_u8 v1, usize v2, slice_u8 v3);
static void record__set_used(slice_mut_u8 v1, usize v2, usize v3);
static usize record__slot_at(rules__Slot v1);
static slice_u8 record__StoredObject__expression(const record__StoredObject *v1, rules__Slot v2);
static rules__Length record__StoredObject__used(const record__StoredObject *v1);
static slice_u8 record__StoredObject__content(const record__StoredObject *v1);
static bool record__zero_from(slice_u8 v1, usize v2);
static bool record__filled(slice_u8 v1, usize v2);
static bool record__slot_ok(slice_u8 v1);
static bool record__slots_ok(slice_u8 v1);
static bool record__body_ok(slice_u8 v1);
static bool record__record_ok(slice_u8 v1);
static void change__count(slice_mut_u8 v1, usize v2, uint8_t v3);
static void change__erase_and_write(slice_mut_u8 v1, usize v2, rules__Offset v3, slice_u8 v4);
static void change__set_expression(slice_mut_u8 v1, usize v2, rules__Slot v3, slice_u8 v4);
static void change__set_lcso(slice_mut_u8 v1, usize v2, uint8_t v3);
static void change__write(slice_mut_u8 v1, usize v2, rules__Offset v3, slice_u8 v4);
static bool content__field_allowed(reader__Field v1, uint8_t v2);
static bool content__content_allowed(slice_u8 v1, uint8_t v2);
static rules__Slot content__slot_of(uint8_t v1);
static void content__store_field(slice_mut_u8 v1, usize v2, reader__Field v3);
static void content__store_content(slice_mut_u8 v1, usize v2, slice_u8 v3);
static rules__Session factory__fresh_session(void);
static void factory__put_record(slice_mut_u8 v1, rules__ObjectNumber v2, rules__Length v3);
static void factory__fill(slice_mut_u8 v1);
static core__result__Result__unit__factory__WrongSize factory__make_factory_store(slice_mut_u8 v1);
static void fares__acknowledge(slice_mut_u8 v1, usize v2, uint32_t v3);
static void fares__append(slice_mut_u8 v1, usize v2, slice_u8 v3);
static core__result__Result__unit__rules__Refusal fares__judge_acknowledge(const record__StoredObject *v1, uint32_t v2);
static core__result__Result__unit__rules__Refusal fares__judge_append(const record__StoredObject *v1, slice_u8 v2);
static void response__done(slice_mut_u8 v1);
static void response__head(slice_mut_u8 v1, rules__Length v2);
static void response__answer(slice_mut_u8 v1, slice_u8 v2);
static void response__refuse(slice_mut_u8 v1);
static usize answer__expression_length(const record__StoredObject *v1, rules__Slot v2);
static usize answer__answer_size(const record__StoredObject *v1);
static rules__Length answer__answer_length(const record__StoredObject *v1);
static usize answer__put_field(slice_mut_u8 v1, usize v2, uint8_t v3, slice_u8 v4);
static void answer__put_sizes(const record__StoredObject *v1, usize v2, slice_mut_u8 v3);
static uint8_t answer__tag_of(rules__Slot v1);
static usize answer__put_expression(const record__StoredObject *v1, rules__Slot v2, slice_mut_u8 v3, usize v4);
static void answer__write_answer(const record__StoredObject *v1, slice_mut_u8 v2);
static rules__Session session__with_error(uint8_t v1, rules__Session v2);
static rules__Session session__raised(uint8_t v1, rules__Session v2);
static rules__Session session__with_opened(bool v1, rules__Session v2);
static rules__Session session__with_state(rules__ObjectNumber v1, uint8_t v2, rules__Session v3);
static rules__Sizes command__action_sizes(rules__Action v1);
static rules__Length command__asked_length(slice_u8 v1);
static bool command__asks_flush(slice_u8 v1);
static uint8_t command__cmd(slice_u8 v1);
static rules__Session command__flushed(slice_u8 v1, rules__Session v2);
static bool command__ill_sized(slice_u8 v1);
static bool command__known_cmd(uint8_t v1);
static rules__ObjectNumber command__object_number(slice_u8 v1);
static rules__Offset command__offset(slice_u8 v1);
static rules__Row command__row_of(uint8_t v1, uint8_t v2);
static rules__Row command__row_of_command(slice_u8 v1);
static rules__Sizes command__row_sizes(rules__Row v1);
static slice_u8 command__sent_body(slice_u8 v1);
static slice_u8 command__sent_data(slice_u8 v1);
static slice_u8 command__sent_metadata(slice_u8 v1);
static uint32_t command__sent_number(slice_u8 v1);
static bool command__size_right(rules__Sizes v1, usize v2);
static uint8_t command__step_byte(slice_u8 v1);
static bool command__unknown_cmd(slice_u8 v1);
static bool command__unknown_param(slice_u8 v1);
static bool command__unsound(bool v1, rules__Session v2);
static bool command__unusable(slice_u8 v1, rules__Session v2);
static bool command__wrong_content(slice_u8 v1);
static bool command__wrong_length(slice_u8 v1);
static core__result__Result__unit__rules__Refusal command__early(bool v1, slice_u8 v2, rules__Session v3);
static rules__Session act__set_state(slice_u8 v1, rules__ObjectNumber v2, rules__Session v3, slice_mut_u8 v4);
static void act__show_data(slice_u8 v1, const record__StoredObject *v2, slice_mut_u8 v3);
static void act__act_on_record(rules__Action v1, slice_u8 v2, slice_mut_u8 v3, usize v4, slice_mut_u8 v5);
static rules__Session act__shown_session(rules__ObjectNumber v1, rules__Length v2, rules__Session v3);
static rules__Session act__show_byte(slice_u8 v1, rules__ObjectNumber v2, uint8_t v3, rules__Session v4, slice_mut_u8 v5);
static rules__Session act__act_in_session(rules__Action v1, slice_u8 v2, rules__ObjectNumber v3, uint8_t v4, rules__Session v5, slice_mut_u8 v6);
static bool store__check_store(slice_u8 v1);
static core__option__Option__usize store__find_record(slice_u8 v1, rules__ObjectNumber v2);
static core__option__Option__u16 access__counter_named(slice_u8 v1);
static bool access__ends_group(slice_u8 v1);
static bool access__Sight__is_usable(const access__Sight *v1, rules__ObjectNumber v2);
static access__Counters access__Counters__none(void);
static slice_u16 access__Counters__numbers(const access__Counters *v1);
static void access__Counters__push(access__Counters *v1, uint16_t v2);
static void access__Counters__push_named(access__Counters *v1, slice_u8 v2);
static uint8_t access__Sight__state_of(const access__Sight *v1, uint8_t v2);
static bool access__Sight__state_holds(const access__Sight *v1, slice_u8 v2);
static bool access__Sight__condition_holds(const access__Sight *v1, slice_u8 v2);
static core__option__Option__access__Counters access__Sight__deciding_group(const access__Sight *v1, slice_u8 v2);
static core__option__Option__access__Counters access__Sight__grant_of(const access__Sight *v1, slice_u8 v2);
static core__option__Option__access__Counters access__granted(rules__Action v1, const record__StoredObject *v2, slice_u8 v3, rules__Session v4);
static core__option__Option__judge__Target judge__find_target(slice_u8 v1, slice_u8 v2, rules__Session v3);
static bool judge__is_life_cycle(rules__Kind v1);
static core__result__Result__unit__rules__Refusal judge__judge_acknowledge(slice_u8 v1, const record__StoredObject *v2, usize v3);
static core__result__Result__unit__rules__Refusal judge__judge_append(slice_u8 v1, const record__StoredObject *v2, usize v3);
static core__result__Result__unit__rules__Refusal judge__judge_count(slice_u8 v1, const record__StoredObject *v2, usize v3);
static core__result__Result__unit__rules__Refusal judge__judge_get(slice_u8 v1, rules__Length v2, usize v3);
static core__result__Result__unit__rules__Refusal judge__judge_metadata(slice_u8 v1, const record__StoredObject *v2, usize v3);
static core__result__Result__unit__rules__Refusal judge__judge_state(slice_u8 v1, rules__Kind v2, uint8_t v3, usize v4);
static core__result__Result__unit__rules__Refusal judge__refuse_in_session(rules__Kind v1);
static core__result__Result__unit__rules__Refusal judge__judge_session(rules__Action v1, slice_u8 v2, rules__Kind v3, uint8_t v4, usize v5);
static judge__Judgment judge__without_counters(core__result__Result__unit__rules__Refusal v1);
static bool judge__write_fits(slice_u8 v1, rules__Kind v2, rules__Length v3);
static core__result__Result__unit__rules__Refusal judge__judge_write(slice_u8 v1, const record__StoredObject *v2, usize v3);
static core__result__Result__unit__rules__Refusal judge__judge_own(rules__Action v1, slice_u8 v2, const record__StoredObject *v3, usize v4);
static judge__Judgment judge__judge_stored(rules__Action v1, slice_u8 v2, const record__StoredObject *v3, slice_u8 v4, rules__Session v5, usize v6);
static judge__Judgment judge__judge_target(rules__Action v1, slice_u8 v2, core__option__Option__judge__Target v3, slice_u8 v4, rules__Session v5, usize v6);
static bool usage__is_listed(slice_u16 v1, uint16_t v2);
static void usage__step_counter(slice_mut_u8 v1, rules__ObjectNumber v2);
static void usage__use_up(slice_mut_u8 v1, const access__Counters *v2);
static rules__Session element__perform(rules__Action v1, slice_u8 v2, core__option__Option__judge__Target v3, const access__Counters *v4, slice_mut_u8 v5, rules__Session v6, slice_mut_u8 v7);
static element__Answer element__refuse(rules__Refusal v1, rules__Session v2, slice_mut_u8 v3);
static element__Answer element__on_object(rules__Action v1, slice_u8 v2, slice_mut_u8 v3, rules__Session v4, slice_mut_u8 v5);
static element__Answer element__set_session(rules__Session v1, slice_mut_u8 v2);
static element__Answer element__carry_out(slice_u8 v1, slice_mut_u8 v2, rules__Session v3, slice_mut_u8 v4);
static element__Answer element__execute(slice_u8 v1, slice_mut_u8 v2, rules__Session v3, slice_mut_u8 v4);
static void runs__Destruct__none__drop__usize(usize v1);
static usize runs__fitted(slice_usize v1, usize v2, usize v3);
static element__Answer runs__turn(slice_u8 v1, usize v2, usize v3, slice_mut_u8 v4, rules__Session v5, slice_mut_u8 v6, usize v7, usize v8);
static rules__Session runs__run(slice_u8 v1, slice_usize v2, slice_mut_u8 v3, rules__Session v4, slice_mut_u8 v5, slice_usize v6, slice_mut_u8 v7);
static bool firmware__all_fit(slice_usize v1, usize v2, usize v3);
static bool firmware__element_check_store(slice_u8 v1);
static uint8_t firmware__element_make_factory_store(slice_mut_u8 v1);
static bool firmware__fit(slice_usize v1, usize v2, slice_usize v3, usize v4, usize v5);
static rules__Session firmware__SessionFromHostSession__from(element_session v1);
static uint8_t firmware__opened_byte(uint8_t v1, bool v2);
static element_session firmware__bytes_of(element_session v1, rules__Session v2);
static uint8_t firmware__element_execute(slice_u8 v1, slice_mut_u8 v2, element_session *v3, slice_mut_u8 v4);
static element_session firmware__element_fresh_session(void);
static uint8_t firmware__element_run(slice_u8 v1, slice_usize v2, slice_mut_u8 v3, element_session *v4, slice_mut_u8 v5, slice_usize v6, slice_mut_u8 v7);

/* core::slice::scan::any_in_run<core::cmp::slices::ElementMismatch<u8>> */
static bool core__slice__scan__any_in_run__ElementMismatch__u8(const core__cmp__slices__ElementMismatch__u8 *v1, usize v2, usize v3)
{
    bool result;
    bool v4;
    usize v5;
    bool v6;
    usize v7;
    v4 = false;
    v5 = 0u;
    for (;;) {
        v6 = v5 < v3;
        if (!v6) {
            break;
        }
        v7 = v2 + v5;
        v6 = core__cmp__slices__ElementMismatchPlaceTest__at__u8(v1, v7);
        v4 = v4 || v6;
        v5 = v5 + 1u;
    }
    result = v4;
    return result;
}

/* core::slice::scan::any_in_ends<core::cmp::slices::ElementMismatch<u8>> */
static bool core__slice__scan__any_in_ends__ElementMismatch__u8(const core__cmp__slices__ElementMismatch__u8 *v1, usize v2, usize v3)
{
    bool result;
    bool v4;
    bool v5;
    usize v6;
    v4 = core__slice__scan__any_in_run__ElementMismatch__u8(v1, 0u, v3);
    v6 = v2 - v3;
    v5 = core__slice__scan__any_in_run__ElementMismatch__u8(v1, v6, v3);
    result = v4 || v5;
    return result;
}

/* core::slice::scan::any_in_three<core::cmp::slices::ElementMismatch<u8>> */
static bool core__slice__scan__any_in_three__ElementMismatch__u8(const core__cmp__slices__ElementMismatch__u8 *v1, usize v2)
{
    bool result;
    bool v3;
    bool v4;
    usize v5;
    bool v6;
    bool v7;
    usize v8;
    v3 = core__slice__scan__any_in_run__ElementMismatch__u8(v1, 0u, 1u);
    v5 = v2 / 2u;
    v4 = core__slice__scan__any_in_run__ElementMismatch__u8(v1, v5, 1u);
    v6 = v3 || v4;
    v8 = v2 - 1u;
    v7 = core__slice__scan__any_in_run__ElementMismatch__u8(v1, v8, 1u);
    result = v6 || v7;
    return result;
}

/* core::simd::chunks::arrays<u8, 4> */
static slice_array_u8_4 core__simd__chunks__arrays__u8__4(slice_u8 v1, usize v2)
{
    slice_array_u8_4 result;
    slice_array_u8_4 v3;
    const uint8_t *v4;
    v4 = v1.at;
    v3 = (slice_array_u8_4){ .at = v4, .length = v2 };
    result = v3;
    return result;
}

/* core::simd::chunks::slice+T::as_chunks<u8, 4> */
static tuple2__slice_array_u8_4__slice_u8 core__simd__chunks__slice_T__as_chunks__u8__4(slice_u8 v1)
{
    tuple2__slice_array_u8_4__slice_u8 result;
    usize v2;
    usize v3;
    slice_array_u8_4 v4;
    usize v5;
    const uint8_t *v6;
    usize v7;
    const uint8_t *v8;
    slice_u8 v9;
    v3 = v1.length;
    v2 = v3 / 4u;
    v4 = core__simd__chunks__arrays__u8__4(v1, v2);
    v3 = v2 * 4u;
    v5 = v3 * 1u;
    v6 = v1.at + v5;
    v7 = v1.length - v3;
    v8 = v6;
    v9 = (slice_u8){ .at = v8, .length = v7 };
    result = (tuple2__slice_array_u8_4__slice_u8){ .f0 = v4, .f1 = v9 };
    return result;
}

/* core::array::array+N+T::as_slice<u8, 16> */
static slice_u8 core__array__array_N_T__as_slice__u8__16(const uint8_t *v1)
{
    slice_u8 result;
    const uint8_t *v2;
    v2 = v1;
    result = (slice_u8){ .at = v2, .length = 16u };
    return result;
}

/* core::cmp::slices::ElementMismatchPlaceTest::at<u8> */
static bool core__cmp__slices__ElementMismatchPlaceTest__at__u8(const core__cmp__slices__ElementMismatch__u8 *v1, usize v2)
{
    bool result;
    slice_u8 v3;
    slice_u8 v4;
    slice_u8 v5;
    slice_u8 v6;
    bool v7;
    usize v8;
    const uint8_t *v9;
    const uint8_t *v10;
    usize v11;
    const uint8_t *v12;
    const uint8_t *v13;
    v5 = v1->f0;
    v6 = v1->f1;
    v3 = v5;
    v4 = v6;
    v8 = v2 * 1u;
    v9 = v3.at + v8;
    v10 = v9;
    v11 = v2 * 1u;
    v12 = v4.at + v11;
    v13 = v12;
    v7 = core__cmp__numbers__U8PartialEq__eq(v10, v13);
    result = !v7;
    return result;
}

/* core::option::OptionTry::branch<u64> */
static core__ops__ControlFlow__NoValue__usize core__option__OptionTry__branch__usize(core__option__Option__usize v1)
{
    core__ops__ControlFlow__NoValue__usize result;
    usize v2;
    core__ops__ControlFlow__NoValue__usize v3;
    usize v4;
    switch (v1.tag) {
    case 1u:
        v2 = v1.as.v1.f1;
        v4 = v2;
        v3 = (core__ops__ControlFlow__NoValue__usize){ .tag = 0u, .as.v0.f1 = v4 };
        break;
    case 0u:
    default:
        v3 = (core__ops__ControlFlow__NoValue__usize){ .tag = 1u };
        break;
    }
    result = v3;
    return result;
}

/* core::result::ResultTry::branch<(), rules::Refusal> */
static core__ops__ControlFlow__ErrResidual__rules__Refusal__unit core__result__ResultTry__branch__unit__rules__Refusal(core__result__Result__unit__rules__Refusal v1)
{
    core__ops__ControlFlow__ErrResidual__rules__Refusal__unit result;
    rules__Refusal v3;
    core__ops__ControlFlow__ErrResidual__rules__Refusal__unit v4;
    rules__Refusal v6;
    core__result__ErrResidual__rules__Refusal v7;
    switch (v1.tag) {
    case 0u:
        v4 = (core__ops__ControlFlow__ErrResidual__rules__Refusal__unit){ .tag = 0u };
        break;
    case 1u:
    default:
        v3 = v1.as.v1.f1;
        v6 = v3;
        v7 = (core__result__ErrResidual__rules__Refusal){ .f0 = v6 };
        v4 = (core__ops__ControlFlow__ErrResidual__rules__Refusal__unit){ .tag = 1u, .as.v1.f1 = v7 };
        break;
    }
    result = v4;
    return result;
}

/* core::iter::slices::slice+T::chunks<u8> */
static core__iter__slices__Chunks__u8 core__iter__slices__slice_T__chunks__u8(slice_u8 v1, usize v2)
{
    core__iter__slices__Chunks__u8 result;
    result = (core__iter__slices__Chunks__u8){ .f0 = v1, .f1 = v2 };
    return result;
}

/* core::clone::U8Clone::clone */
static core__result__Result__u8__AllocError core__clone__U8Clone__clone(const uint8_t *v1)
{
    core__result__Result__u8__AllocError result;
    uint8_t v2;
    v2 = *v1;
    result = (core__result__Result__u8__AllocError){ .tag = 0u, .as.v0.f1 = v2 };
    return result;
}

/* core::cmp::numbers::U8PartialEq::eq */
static bool core__cmp__numbers__U8PartialEq__eq(const uint8_t *v1, const uint8_t *v2)
{
    bool result;
    uint8_t v3;
    uint8_t v4;
    v3 = *v1;
    v4 = *v2;
    result = v3 == v4;
    return result;
}

/* core::slice::scan::first_by_one<core::cmp::slices::ElementMismatch<u8>> */
static usize core__slice__scan__first_by_one__ElementMismatch__u8(const core__cmp__slices__ElementMismatch__u8 *v1, usize v2, usize v3)
{
    usize result;
    usize v4;
    bool v5;
    bool v6;
    v4 = v2;
    for (;;) {
        v5 = v4 < v3;
        if (!v5) {
            break;
        }
        v6 = core__cmp__slices__ElementMismatchPlaceTest__at__u8(v1, v4);
        if (v6) {
            result = v4;
            return result;
        }
        v4 = v4 + 1u;
    }
    result = v3;
    return result;
}

/* core::slice::scan::any_by_one<core::cmp::slices::ElementMismatch<u8>> */
static bool core__slice__scan__any_by_one__ElementMismatch__u8(const core__cmp__slices__ElementMismatch__u8 *v1, usize v2)
{
    bool result;
    usize v3;
    v3 = core__slice__scan__first_by_one__ElementMismatch__u8(v1, 0u, v2);
    result = v3 < v2;
    return result;
}

/* core::slice::scan::any_in_turn<core::cmp::slices::ElementMismatch<u8>> */
static bool core__slice__scan__any_in_turn__ElementMismatch__u8(const core__cmp__slices__ElementMismatch__u8 *v1, usize v2)
{
    bool result;
    usize v3;
    usize v4;
    bool v5;
    usize v6;
    usize v7;
    usize v8;
    v3 = 0u;
    for (;;) {
        v4 = v2 - v3;
        v5 = 4u <= v4;
        if (!v5) {
            break;
        }
        v6 = v3 + 4u;
        v4 = core__slice__scan__first_by_one__ElementMismatch__u8(v1, v3, v6);
        v7 = v3 + 4u;
        v5 = v4 < v7;
        if (v5) {
            result = true;
            return result;
        }
        v3 = v3 + 4u;
    }
    v8 = core__slice__scan__first_by_one__ElementMismatch__u8(v1, v3, v2);
    result = v8 < v2;
    return result;
}

/* core::convert::AnyFrom::from<rules::Refusal> */
static rules__Refusal core__convert__AnyFrom__from__rules__Refusal(rules__Refusal v1)
{
    rules__Refusal result;
    result = v1;
    return result;
}

/* core::int::u16::from_be_bytes */
static uint16_t core__int__u16__from_be_bytes(array_u8_2 v1)
{
    uint16_t result;
    array_u8_2 v2;
    uint8_t *v3;
    uint8_t *v4;
    uint8_t v5;
    uint16_t v6;
    uint16_t v7;
    uint8_t *v8;
    uint8_t *v9;
    uint8_t v10;
    uint16_t v11;
    v2 = v1;
    v3 = v2.at;
    v4 = v3 + 0u;
    v5 = *v4;
    v6 = (uint16_t)v5;
    v7 = (uint16_t)((uint32_t)v6 * (uint32_t)256u);
    v8 = v2.at;
    v9 = v8 + 1u;
    v10 = *v9;
    v11 = (uint16_t)v10;
    result = (uint16_t)((uint32_t)v7 + (uint32_t)v11);
    return result;
}

/* core::int::u32::from_be_bytes */
static uint32_t core__int__u32__from_be_bytes(array_u8_4 v1)
{
    uint32_t result;
    array_u8_4 v2;
    uint8_t *v3;
    uint8_t *v4;
    uint8_t v5;
    uint32_t v6;
    uint32_t v7;
    uint8_t *v8;
    uint8_t *v9;
    uint8_t v10;
    uint32_t v11;
    uint32_t v12;
    uint32_t v13;
    uint8_t *v14;
    uint8_t *v15;
    uint8_t v16;
    uint32_t v17;
    uint32_t v18;
    uint32_t v19;
    uint8_t *v20;
    uint8_t *v21;
    uint8_t v22;
    uint32_t v23;
    v2 = v1;
    v3 = v2.at;
    v4 = v3 + 0u;
    v5 = *v4;
    v6 = (uint32_t)v5;
    v7 = v6 * 16777216u;
    v8 = v2.at;
    v9 = v8 + 1u;
    v10 = *v9;
    v11 = (uint32_t)v10;
    v12 = v11 * 65536u;
    v13 = v7 + v12;
    v14 = v2.at;
    v15 = v14 + 2u;
    v16 = *v15;
    v17 = (uint32_t)v16;
    v18 = v17 * 256u;
    v19 = v13 + v18;
    v20 = v2.at;
    v21 = v20 + 3u;
    v22 = *v21;
    v23 = (uint32_t)v22;
    result = v19 + v23;
    return result;
}

/* core::int::u16::from_le_bytes */
static uint16_t core__int__u16__from_le_bytes(array_u8_2 v1)
{
    uint16_t result;
    array_u8_2 v2;
    uint8_t *v3;
    uint8_t *v4;
    uint8_t v5;
    uint16_t v6;
    uint8_t *v7;
    uint8_t *v8;
    uint8_t v9;
    uint16_t v10;
    uint16_t v11;
    v2 = v1;
    v3 = v2.at;
    v4 = v3 + 0u;
    v5 = *v4;
    v6 = (uint16_t)v5;
    v7 = v2.at;
    v8 = v7 + 1u;
    v9 = *v8;
    v10 = (uint16_t)v9;
    v11 = (uint16_t)((uint32_t)v10 * (uint32_t)256u);
    result = (uint16_t)((uint32_t)v6 + (uint32_t)v11);
    return result;
}

/* core::int::u32::from_le_bytes */
static uint32_t core__int__u32__from_le_bytes(array_u8_4 v1)
{
    uint32_t result;
    array_u8_4 v2;
    uint8_t *v3;
    uint8_t *v4;
    uint8_t v5;
    uint32_t v6;
    uint8_t *v7;
    uint8_t *v8;
    uint8_t v9;
    uint32_t v10;
    uint32_t v11;
    uint32_t v12;
    uint8_t *v13;
    uint8_t *v14;
    uint8_t v15;
    uint32_t v16;
    uint32_t v17;
    uint32_t v18;
    uint8_t *v19;
    uint8_t *v20;
    uint8_t v21;
    uint32_t v22;
    uint32_t v23;
    v2 = v1;
    v3 = v2.at;
    v4 = v3 + 0u;
    v5 = *v4;
    v6 = (uint32_t)v5;
    v7 = v2.at;
    v8 = v7 + 1u;
    v9 = *v8;
    v10 = (uint32_t)v9;
    v11 = v10 * 256u;
    v12 = v6 + v11;
    v13 = v2.at;
    v14 = v13 + 2u;
    v15 = *v14;
    v16 = (uint32_t)v15;
    v17 = v16 * 65536u;
    v18 = v12 + v17;
    v19 = v2.at;
    v20 = v19 + 3u;
    v21 = *v20;
    v22 = (uint32_t)v21;
    v23 = v22 * 16777216u;
    result = v18 + v23;
    return result;
}

/* core::option::OptionFromResidualNoValue::from_residual<judge::Target> */
static core__option__Option__judge__Target core__option__OptionFromResidualNoValue__from_residual__judge__Target(void)
{
    core__option__Option__judge__Target result;
    result = (core__option__Option__judge__Target){ .tag = 0u };
    return result;
}

/* core::result::ResultFromResidualErrResidual::from_residual<(), rules::Refusal, rules::Refusal> */
static core__result__Result__unit__rules__Refusal core__result__ResultFromResidualErrResidual__from_residual__unit__rules__Refusal__rules__Refusal(core__result__ErrResidual__rules__Refusal v1)
{
    core__result__Result__unit__rules__Refusal result;
    rules__Refusal v2;
    rules__Refusal v3;
    v3 = v1.f0;
    v2 = core__convert__AnyFrom__from__rules__Refusal(v3);
    result = (core__result__Result__unit__rules__Refusal){ .tag = 1u, .as.v1.f1 = v2 };
    return result;
}

/* core::slice::slice+T::get<size_t, u64, &u64> */
static core__option__Option__ref_size core__slice__slice_T__get__size__usize__ref_usize(slice_usize v1, usize v2)
{
    core__option__Option__ref_size result;
    usize v3;
    v3 = v2;
    result = core__slice__index__UsizeSliceIndexRefSlice__pick__size(v3, v1);
    return result;
}

/* core::convert::AnyInto::into<firmware::HostSession, rules::Session> */
static rules__Session core__convert__AnyInto__into__firmware__HostSession__rules__Session(element_session v1)
{
    rules__Session result;
    element_session v2;
    v2 = v1;
    result = firmware__SessionFromHostSession__from(v2);
    return result;
}

/* core::iter::traits::AnyIntoIterator::into_iter<core::iter::slices::Chunks<u8>, &[u8]> */
static core__iter__slices__Chunks__u8 core__iter__traits__AnyIntoIterator__into_iter__Chunks__u8__slice_u8(core__iter__slices__Chunks__u8 v1)
{
    core__iter__slices__Chunks__u8 result;
    result = v1;
    return result;
}

/* core::slice::slice+T::is_empty<u8> */
static bool core__slice__slice_T__is_empty__u8(slice_u8 v1)
{
    bool result;
    usize v2;
    v2 = v1.length;
    result = v2 == 0u;
    return result;
}

/* core::int::u32::max */
static uint32_t core__int__u32__max(uint32_t v1, uint32_t v2)
{
    uint32_t result;
    bool v3;
    uint32_t v4;
    v3 = v2 < v1;
    if (v3) {
        v4 = v1;
    } else {
        v4 = v2;
    }
    result = v4;
    return result;
}

/* core::int::u8::max */
static uint8_t core__int__u8__max(uint8_t v1, uint8_t v2)
{
    uint8_t result;
    bool v3;
    uint8_t v4;
    v3 = v2 < v1;
    if (v3) {
        v4 = v1;
    } else {
        v4 = v2;
    }
    result = v4;
    return result;
}

/* core::int::usize::max */
static usize core__int__usize__max(usize v1, usize v2)
{
    usize result;
    bool v3;
    usize v4;
    v3 = v2 < v1;
    if (v3) {
        v4 = v1;
    } else {
        v4 = v2;
    }
    result = v4;
    return result;
}

/* core::int::u32::min */
static uint32_t core__int__u32__min(uint32_t v1, uint32_t v2)
{
    uint32_t result;
    bool v3;
    uint32_t v4;
    v3 = v2 < v1;
    if (v3) {
        v4 = v2;
    } else {
        v4 = v1;
    }
    result = v4;
    return result;
}

/* core::int::usize::min */
static usize core__int__usize__min(usize v1, usize v2)
{
    usize result;
    bool v3;
    usize v4;
    v3 = v2 < v1;
    if (v3) {
        v4 = v2;
    } else {
        v4 = v1;
    }
    result = v4;
    return result;
}

/* core::slice::scan::any_in_quarters<core::cmp::slices::ElementMismatch<u8>> */
static bool core__slice__scan__any_in_quarters__ElementMismatch__u8(const core__cmp__slices__ElementMismatch__u8 *v1, usize v2, usize v3)
{
    bool result;
    usize v4;
    bool v5;
    bool v6;
    usize v7;
    bool v8;
    bool v9;
    usize v10;
    usize v11;
    bool v12;
    bool v13;
    v4 = v2 - v3;
    v5 = core__slice__scan__any_in_run__ElementMismatch__u8(v1, 0u, v3);
    v7 = core__int__usize__min(v3, v4);
    v6 = core__slice__scan__any_in_run__ElementMismatch__u8(v1, v7, v3);
    v8 = v5 || v6;
    v11 = (usize)2u * v3;
    v10 = core__int__usize__min(v11, v4);
    v9 = core__slice__scan__any_in_run__ElementMismatch__u8(v1, v10, v3);
    v12 = v8 || v9;
    v13 = core__slice__scan__any_in_run__ElementMismatch__u8(v1, v4, v3);
    result = v12 || v13;
    return result;
}

/* core::cmp::PartialEq::ne<&[u8]> */
static bool core__cmp__PartialEq__ne__slice_u8(const slice_u8 *v1, const slice_u8 *v2)
{
    bool result;
    bool v3;
    v3 = core__cmp__slices__RefSlicePartialEq__eq__u8(v1, v2);
    result = !v3;
    return result;
}

/* core::iter::slices::ChunksIterator::next<u8> */
static core__option__Option__slice_u8 core__iter__slices__ChunksIterator__next__u8(core__iter__slices__Chunks__u8 *v1)
{
    core__option__Option__slice_u8 result;
    slice_u8 v2;
    usize v3;
    bool v4;
    usize v5;
    usize v6;
    bool v7;
    usize v8;
    const uint8_t *v9;
    const uint8_t *v10;
    slice_u8 v11;
    const uint8_t *v12;
    slice_u8 v13;
    v2 = v1->f0;
    v4 = core__slice__slice_T__is_empty__u8(v2);
    if (v4) {
        result = (core__option__Option__slice_u8){ .tag = 0u };
        return result;
    }
    v5 = v2.length;
    v6 = v1->f1;
    v7 = v5 < v6;
    if (v7) {
        v8 = v2.length;
    } else {
        v8 = v1->f1;
    }
    v3 = v8;
    v5 = v3 * 1u;
    v9 = v2.at + v5;
    v6 = v2.length - v3;
    v10 = v9;
    v11 = (slice_u8){ .at = v10, .length = v6 };
    v1->f0 = v11;
    v12 = v2.at;
    v13 = (slice_u8){ .at = v12, .length = v3 };
    result = (core__option__Option__slice_u8){ .tag = 1u, .as.v1.f1 = v13 };
    return result;
}

/* core::slice::index::UsizeSliceIndexRefSlice::pick<size_t> */
static core__option__Option__ref_size core__slice__index__UsizeSliceIndexRefSlice__pick__size(usize v1, slice_usize v2)
{
    core__option__Option__ref_size result;
    usize v3;
    bool v4;
    core__option__Option__ref_size v5;
    usize v6;
    const size_t *v7;
    const size_t *v8;
    v3 = v2.length;
    v4 = v1 < v3;
    if (v4) {
        v6 = v1 * 8u;
        v7 = v2.at + v6 / 8u;
        v8 = v7;
        v5 = (core__option__Option__ref_size){ .tag = 1u, .as.v1.f1 = v8 };
    } else {
        v5 = (core__option__Option__ref_size){ .tag = 0u };
    }
    result = v5;
    return result;
}

/* core::int::u32::saturating_add */
static uint32_t core__int__u32__saturating_add(uint32_t v1, uint32_t v2)
{
    uint32_t result;
    uint32_t v3;
    bool v4;
    uint32_t v5;
    v3 = (uint32_t)4294967295u - v2;
    v4 = v1 <= v3;
    if (v4) {
        v5 = v1 + v2;
    } else {
        v5 = 4294967295u;
    }
    result = v5;
    return result;
}

/* core::int::u32::saturating_sub */
static uint32_t core__int__u32__saturating_sub(uint32_t v1, uint32_t v2)
{
    uint32_t result;
    bool v3;
    uint32_t v4;
    v3 = v2 <= v1;
    if (v3) {
        v4 = v1 - v2;
    } else {
        v4 = 0u;
    }
    result = v4;
    return result;
}

/* core::int::usize::saturating_sub */
static usize core__int__usize__saturating_sub(usize v1, usize v2)
{
    usize result;
    bool v3;
    usize v4;
    v3 = v2 <= v1;
    if (v3) {
        v4 = v1 - v2;
    } else {
        v4 = 0u;
    }
    result = v4;
    return result;
}

/* core::mem::size_of_param<u8> */
static usize core__mem__size_of_param__u8(void)
{
    usize result;
    result = 1u;
    return result;
}

/* core::slice::scan::group<u8> */
static usize core__slice__scan__group__u8(void)
{
    usize result;
    usize v1;
    bool v2;
    usize v3;
    usize v4;
    bool v5;
    usize v6;
    usize v7;
    usize v8;
    bool v9;
    usize v10;
    usize v11;
    v1 = core__mem__size_of_param__u8();
    v2 = v1 == 1u;
    v3 = (usize)v2;
    v4 = (usize)32u * v3;
    v5 = v1 == 2u;
    v6 = (usize)v5;
    v7 = (usize)16u * v6;
    v8 = v4 + v7;
    v9 = v1 == 4u;
    v10 = (usize)v9;
    v11 = (usize)8u * v10;
    result = v8 + v11;
    return result;
}

/* core::slice::scan::skip_groups<core::cmp::slices::ElementMismatch<u8>> */
static usize core__slice__scan__skip_groups__ElementMismatch__u8(const core__cmp__slices__ElementMismatch__u8 *v1, usize v2, usize v3, usize v4)
{
    usize result;
    usize v5;
    bool v6;
    bool v7;
    usize v8;
    bool v9;
    bool v10;
    v5 = v2;
    for (;;) {
        v7 = 0u < v4;
        if (v7) {
            v8 = v3 - v5;
            v7 = v4 <= v8;
            v6 = v7;
            if (v6) {
                v9 = core__slice__scan__any_in_run__ElementMismatch__u8(v1, v5, v4);
                v6 = !v9;
                v10 = v6;
                if (!v10) {
                    break;
                }
            } else {
                break;
            }
        } else {
            break;
        }
        v5 = v5 + v4;
    }
    result = v5;
    return result;
}

/* core::slice::scan::any_by_groups<core::cmp::slices::ElementMismatch<u8>> */
static bool core__slice__scan__any_by_groups__ElementMismatch__u8(const core__cmp__slices__ElementMismatch__u8 *v1, usize v2, usize v3)
{
    bool result;
    usize v4;
    usize v5;
    bool v6;
    usize v7;
    bool v8;
    usize v9;
    usize v10;
    v6 = v3 < 8u;
    if (v6) {
        result = core__slice__scan__any_in_turn__ElementMismatch__u8(v1, v2);
        return result;
    }
    v7 = v3 / 8u;
    v6 = v2 < v7;
    if (v6) {
        v8 = 0u < v2;
        if (v8) {
            v8 = core__slice__scan__any_in_three__ElementMismatch__u8(v1, v2);
        }
        result = v8;
        return result;
    }
    v7 = v3 / 4u;
    v6 = v2 <= v7;
    if (v6) {
        v9 = v3 / 8u;
        result = core__slice__scan__any_in_ends__ElementMismatch__u8(v1, v2, v9);
        return result;
    }
    v6 = v2 <= v3;
    if (v6) {
        v10 = v3 / 4u;
        result = core__slice__scan__any_in_quarters__ElementMismatch__u8(v1, v2, v10);
        return result;
    }
    v7 = (usize)2u * v3;
    v6 = v2 <= v7;
    if (v6) {
        result = core__slice__scan__any_in_ends__ElementMismatch__u8(v1, v2, v3);
        return result;
    }
    v7 = (usize)2u * v3;
    v4 = core__slice__scan__skip_groups__ElementMismatch__u8(v1, 0u, v2, v7);
    v5 = core__slice__scan__skip_groups__ElementMismatch__u8(v1, v4, v2, v3);
    v7 = v2 - v5;
    v6 = v3 <= v7;
    if (v6) {
        result = true;
        return result;
    }
    v7 = v2 - v3;
    result = core__slice__scan__any_in_run__ElementMismatch__u8(v1, v7, v3);
    return result;
}

/* core::cmp::slices::all_equal<u8> */
static bool core__cmp__slices__all_equal__u8(slice_u8 v1, slice_u8 v2)
{
    bool result;
    usize v3;
    usize v4;
    bool v5;
    core__cmp__slices__ElementMismatch__u8 v6;
    core__cmp__slices__ElementMismatch__u8 v7;
    const core__cmp__slices__ElementMismatch__u8 *v8;
    v3 = v1.length;
    v4 = v2.length;
    v5 = v3 != v4;
    if (v5) {
        result = false;
        return result;
    }
    v6 = (core__cmp__slices__ElementMismatch__u8){ .f0 = v1, .f1 = v2 };
    v7 = v6;
    v8 = &v7;
    v3 = v1.length;
    v4 = core__slice__scan__group__u8();
    v5 = core__slice__scan__any_by_groups__ElementMismatch__u8(v8, v3, v4);
    result = !v5;
    return result;
}

/* core::cmp::slices::groups_equal<u8> */
static bool core__cmp__slices__groups_equal__u8(slice_u8 v1, slice_u8 v2)
{
    bool result;
    bool v3;
    core__cmp__slices__ElementMismatch__u8 v4;
    core__cmp__slices__ElementMismatch__u8 v5;
    const core__cmp__slices__ElementMismatch__u8 *v6;
    usize v7;
    usize v8;
    v4 = (core__cmp__slices__ElementMismatch__u8){ .f0 = v1, .f1 = v2 };
    v5 = v4;
    v6 = &v5;
    v7 = v1.length;
    v8 = core__slice__scan__group__u8();
    v3 = core__slice__scan__any_by_groups__ElementMismatch__u8(v6, v7, v8);
    result = !v3;
    return result;
}

/* core::cmp::slices::parts_equal<u8> */
static bool core__cmp__slices__parts_equal__u8(slice_u8 v1, slice_u8 v2)
{
    bool result;
    result = core__cmp__slices__all_equal__u8(v1, v2);
    return result;
}

/* core::cmp::slices::slices_equal<u8> */
static bool core__cmp__slices__slices_equal__u8(slice_u8 v1, slice_u8 v2)
{
    bool result;
    core__cmp__slices__ElementMismatch__u8 v3;
    usize v4;
    usize v5;
    usize v6;
    bool v7;
    bool v8;
    const core__cmp__slices__ElementMismatch__u8 *v9;
    usize v10;
    bool v11;
    const core__cmp__slices__ElementMismatch__u8 *v12;
    v5 = v1.length;
    v6 = v2.length;
    v7 = v5 != v6;
    if (v7) {
        result = false;
        return result;
    }
    v5 = core__slice__scan__group__u8();
    v7 = v5 < 8u;
    if (v7) {
        result = core__cmp__slices__parts_equal__u8(v1, v2);
        return result;
    }
    v3 = (core__cmp__slices__ElementMismatch__u8){ .f0 = v1, .f1 = v2 };
    v6 = core__slice__scan__group__u8();
    v4 = v6 / 8u;
    v5 = v1.length;
    v7 = v5 < v4;
    if (v7) {
        v9 = &v3;
        v10 = v1.length;
        v8 = core__slice__scan__any_by_one__ElementMismatch__u8(v9, v10);
        result = !v8;
        return result;
    }
    v12 = &v3;
    v11 = core__slice__scan__any_in_run__ElementMismatch__u8(v12, 0u, v4);
    if (v11) {
        result = false;
        return result;
    }
    result = core__cmp__slices__groups_equal__u8(v1, v2);
    return result;
}

/* core::cmp::slices::RefSlicePartialEq::eq<u8> */
static bool core__cmp__slices__RefSlicePartialEq__eq__u8(const slice_u8 *v1, const slice_u8 *v2)
{
    bool result;
    slice_u8 v3;
    slice_u8 v4;
    v3 = *v1;
    v4 = *v2;
    result = core__cmp__slices__slices_equal__u8(v3, v4);
    return result;
}

/* core::bool::then_some<u64> */
static core__option__Option__usize core__bool__then_some__usize(bool v1, usize v2)
{
    core__option__Option__usize result;
    bool v3;
    core__option__Option__usize v4;
    usize v5;
    usize v6;
    v3 = v1;
    if (v3) {
        v5 = v2;
        v4 = (core__option__Option__usize){ .tag = 1u, .as.v1.f1 = v5 };
    } else {
        v4 = (core__option__Option__usize){ .tag = 0u };
        v6 = v2;
        expression__Destruct__none__drop__usize(v6);
    }
    result = v4;
    return result;
}

/* core::int::u16::to_be_bytes */
static array_u8_2 core__int__u16__to_be_bytes(uint16_t v1)
{
    array_u8_2 result;
    uint16_t v2;
    uint16_t v3;
    uint8_t v4;
    uint16_t v5;
    uint8_t v6;
    v2 = (uint16_t)((uint32_t)v1 / (uint32_t)256u);
    v3 = (uint16_t)((uint32_t)v2 % (uint32_t)256u);
    v4 = (uint8_t)v3;
    v5 = (uint16_t)((uint32_t)v1 % (uint32_t)256u);
    v6 = (uint8_t)v5;
    result = (array_u8_2){ { v4, v6 } };
    return result;
}

/* core::int::u32::to_be_bytes */
static array_u8_4 core__int__u32__to_be_bytes(uint32_t v1)
{
    array_u8_4 result;
    uint32_t v2;
    uint32_t v3;
    uint8_t v4;
    uint32_t v5;
    uint32_t v6;
    uint8_t v7;
    uint32_t v8;
    uint32_t v9;
    uint8_t v10;
    uint32_t v11;
    uint8_t v12;
    v2 = v1 / 16777216u;
    v3 = v2 % 256u;
    v4 = (uint8_t)v3;
    v5 = v1 / 65536u;
    v6 = v5 % 256u;
    v7 = (uint8_t)v6;
    v8 = v1 / 256u;
    v9 = v8 % 256u;
    v10 = (uint8_t)v9;
    v11 = v1 % 256u;
    v12 = (uint8_t)v11;
    result = (array_u8_4){ { v4, v7, v10, v12 } };
    return result;
}

/* core::int::u16::to_le_bytes */
static array_u8_2 core__int__u16__to_le_bytes(uint16_t v1)
{
    array_u8_2 result;
    uint16_t v2;
    uint8_t v3;
    uint16_t v4;
    uint16_t v5;
    uint8_t v6;
    v2 = (uint16_t)((uint32_t)v1 % (uint32_t)256u);
    v3 = (uint8_t)v2;
    v4 = (uint16_t)((uint32_t)v1 / (uint32_t)256u);
    v5 = (uint16_t)((uint32_t)v4 % (uint32_t)256u);
    v6 = (uint8_t)v5;
    result = (array_u8_2){ { v3, v6 } };
    return result;
}

/* core::int::u32::to_le_bytes */
static array_u8_4 core__int__u32__to_le_bytes(uint32_t v1)
{
    array_u8_4 result;
    uint32_t v2;
    uint8_t v3;
    uint32_t v4;
    uint32_t v5;
    uint8_t v6;
    uint32_t v7;
    uint32_t v8;
    uint8_t v9;
    uint32_t v10;
    uint32_t v11;
    uint8_t v12;
    v2 = v1 % 256u;
    v3 = (uint8_t)v2;
    v4 = v1 / 256u;
    v5 = v4 % 256u;
    v6 = (uint8_t)v5;
    v7 = v1 / 65536u;
    v8 = v7 % 256u;
    v9 = (uint8_t)v8;
    v10 = v1 / 16777216u;
    v11 = v10 % 256u;
    v12 = (uint8_t)v11;
    result = (array_u8_4){ { v3, v6, v9, v12 } };
    return result;
}

/* core::assertions::unreachable */
static void core__assertions__unreachable(void)
{
    for (;;) { /* never */
    }
}

/* core::clone::surely<u8> */
static uint8_t core__clone__surely__u8(const uint8_t *v1)
{
    uint8_t result;
    uint8_t v2;
    core__result__Result__u8__AllocError v3;
    uint8_t v4;
    v3 = core__clone__U8Clone__clone(v1);
    switch (v3.tag) {
    case 0u:
        v2 = v3.as.v0.f1;
        v4 = v2;
        break;
    case 1u:
    default:
        core__assertions__unreachable();
        for (;;) { /* never */
        }
    }
    result = v4;
    return result;
}

/* core::slice::edits::slice+T::fill<u8> */
static void core__slice__edits__slice_T__fill__u8(slice_mut_u8 v1, uint8_t v2)
{
    uint8_t v3;
    usize v4;
    usize v5;
    bool v6;
    usize v7;
    bool v8;
    uint8_t v9;
    const uint8_t *v10;
    uint8_t *v11;
    uint8_t v12;
    usize v13;
    usize v14;
    uint8_t *v15;
    uint8_t v16;
    uint8_t v18;
    uint8_t v19;
    v3 = v2;
    v4 = v1.length;
    v6 = v4 == 0u;
    if (v6) {
        v16 = v3;
        primitives__Destruct__none__drop__u8(v16);
        return;
    }
    v5 = 0u;
    for (;;) {
        v7 = v4 - 1u;
        v8 = v5 < v7;
        if (!v8) {
            break;
        }
        v10 = &v3;
        v9 = core__clone__surely__u8(v10);
        v7 = v5 * 1u;
        v11 = v1.at + v7;
        v18 = *v11;
        *v11 = v9;
        primitives__Destruct__none__drop__u8(v18);
        v5 = v5 + 1u;
    }
    v12 = v3;
    v13 = v4 - 1u;
    v14 = v13 * 1u;
    v15 = v1.at + v14;
    v19 = *v15;
    *v15 = v12;
    primitives__Destruct__none__drop__u8(v19);
    return;
}

/* core::option::Option::unwrap<&size_t> */
static const size_t *core__option__Option__unwrap__ref_size(core__option__Option__ref_size v1)
{
    const size_t *result;
    const size_t *v2;
    const size_t *v3;
    switch (v1.tag) {
    case 1u:
        v2 = v1.as.v1.f1;
        v3 = v2;
        break;
    case 0u:
    default:
        core__assertions__unreachable();
        for (;;) { /* never */
        }
    }
    result = v3;
    return result;
}

/* core::option::more::Option+ref+T::copied<size_t> */
static core__option__Option__size core__option__more__Option_ref_T__copied__size(core__option__Option__ref_size v1)
{
    core__option__Option__size result;
    core__option__Option__size v2;
    const size_t *v3;
    core__option__Option__ref_size v4;
    usize v5;
    switch (v1.tag) {
    case 1u:
        v4 = v1;
        v3 = core__option__Option__unwrap__ref_size(v4);
        v5 = (usize)*v3;
        v2 = (core__option__Option__size){ .tag = 1u, .as.v1.f1 = v5 };
        break;
    case 0u:
    default:
        v2 = (core__option__Option__size){ .tag = 0u };
        break;
    }
    result = v2;
    return result;
}

/* core::option::Option::unwrap_or<size_t> */
static usize core__option__Option__unwrap_or__size(core__option__Option__size v1, usize v2)
{
    usize result;
    usize v3;
    usize v4;
    usize v5;
    switch (v1.tag) {
    case 1u:
        v3 = v1.as.v1.f1;
        v4 = v3;
        v5 = v2;
        runs__Destruct__none__drop__usize(v5);
        break;
    case 0u:
    default:
        v4 = v2;
        break;
    }
    result = v4;
    return result;
}

/* rules::U8FromRefusal::from */
static uint8_t rules__U8FromRefusal__from(rules__Refusal v1)
{
    uint8_t result;
    uint8_t v2;
    switch (v1.tag) {
    case 0u:
        v2 = 1u;
        break;
    case 1u:
        v2 = 3u;
        break;
    case 2u:
        v2 = 4u;
        break;
    case 3u:
        v2 = 5u;
        break;
    case 4u:
        v2 = 6u;
        break;
    case 5u:
        v2 = 7u;
        break;
    case 6u:
        v2 = 8u;
        break;
    case 7u:
        v2 = 10u;
        break;
    case 8u:
        v2 = 12u;
        break;
    case 9u:
    default:
        v2 = 13u;
        break;
    }
    result = v2;
    return result;
}

/* rules::refuse_if */
static core__result__Result__unit__rules__Refusal rules__refuse_if(bool v1, rules__Refusal v2)
{
    core__result__Result__unit__rules__Refusal result;
    bool v3;
    v3 = v1;
    if (v3) {
        result = (core__result__Result__unit__rules__Refusal){ .tag = 1u, .as.v1.f1 = v2 };
        return result;
    }
    result = (core__result__Result__unit__rules__Refusal){ .tag = 0u };
    return result;
}

/* rules::KindTryFromU16::try_from */
static core__result__Result__rules__Kind__rules__UnknownKind rules__KindTryFromU16__try_from(uint16_t v1)
{
    core__result__Result__rules__Kind__rules__UnknownKind result;
    core__result__Result__rules__Kind__rules__UnknownKind v2;
    rules__Kind v3;
    rules__Direction v4;
    rules__Kind v5;
    rules__Kind v6;
    rules__Direction v7;
    rules__Kind v8;
    rules__UnknownKind v9;
    switch (v1) {
    case 1u:
        v3 = (rules__Kind){ .tag = 0u };
        v2 = (core__result__Result__rules__Kind__rules__UnknownKind){ .tag = 0u, .as.v0.f1 = v3 };
        break;
    case 2u:
        v4 = (rules__Direction){ .tag = 0u };
        v5 = (rules__Kind){ .tag = 1u, .as.v1.f1 = v4 };
        v2 = (core__result__Result__rules__Kind__rules__UnknownKind){ .tag = 0u, .as.v0.f1 = v5 };
        break;
    case 3u:
        v6 = (rules__Kind){ .tag = 2u };
        v2 = (core__result__Result__rules__Kind__rules__UnknownKind){ .tag = 0u, .as.v0.f1 = v6 };
        break;
    case 4u:
        v7 = (rules__Direction){ .tag = 1u };
        v8 = (rules__Kind){ .tag = 1u, .as.v1.f1 = v7 };
        v2 = (core__result__Result__rules__Kind__rules__UnknownKind){ .tag = 0u, .as.v0.f1 = v8 };
        break;
    default:
        v9 = (rules__UnknownKind){ .f0 = v1 };
        v2 = (core__result__Result__rules__Kind__rules__UnknownKind){ .tag = 1u, .as.v1.f1 = v9 };
        break;
    }
    result = v2;
    return result;
}

/* bounds::fits */
static bool bounds__fits(rules__Offset v1, rules__Length v2, rules__Length v3)
{
    bool result;
    bool v4;
    usize v5;
    v4 = v1.f0 <= v3.f0;
    if (v4) {
        v5 = v3.f0 - v1.f0;
        v4 = v2.f0 <= v5;
    }
    result = v4;
    return result;
}

/* bounds::shown_length */
static rules__Length bounds__shown_length(rules__Offset v1, rules__Length v2, rules__Length v3)
{
    rules__Length result;
    usize v4;
    usize v5;
    v5 = core__int__usize__saturating_sub(v3.f0, v1.f0);
    v4 = core__int__usize__min(v5, v2.f0);
    result = (rules__Length){ .f0 = v4 };
    return result;
}

/* bounds::too_long */
static bool bounds__too_long(rules__Length v1, usize v2)
{
    bool result;
    bool v3;
    usize v4;
    v3 = v2 < 4u;
    if (!v3) {
        v4 = v2 - 4u;
        v3 = v4 < v1.f0;
    }
    result = v3;
    return result;
}

/* bounds::fitting */
static core__result__Result__unit__rules__Refusal bounds__fitting(rules__Length v1, usize v2)
{
    core__result__Result__unit__rules__Refusal result;
    bool v3;
    rules__Refusal v4;
    v3 = bounds__too_long(v1, v2);
    v4 = (rules__Refusal){ .tag = 9u };
    result = rules__refuse_if(v3, v4);
    return result;
}

/* bounds::judge_read */
static core__result__Result__unit__rules__Refusal bounds__judge_read(rules__Offset v1, rules__Length v2, rules__Length v3, usize v4)
{
    core__result__Result__unit__rules__Refusal result;
    rules__Length v5;
    core__result__ErrResidual__rules__Refusal v7;
    core__ops__ControlFlow__ErrResidual__rules__Refusal__unit v8;
    core__result__Result__unit__rules__Refusal v9;
    bool v10;
    rules__Refusal v11;
    v5 = bounds__shown_length(v1, v2, v3);
    v10 = v3.f0 < v1.f0;
    v11 = (rules__Refusal){ .tag = 6u };
    v9 = rules__refuse_if(v10, v11);
    v8 = core__result__ResultTry__branch__unit__rules__Refusal(v9);
    switch (v8.tag) {
    case 0u:
        break;
    case 1u:
    default:
        v7 = v8.as.v1.f1;
        result = core__result__ResultFromResidualErrResidual__from_residual__unit__rules__Refusal__rules__Refusal(v7);
        return result;
    }
    result = bounds__fitting(v5, v4);
    return result;
}

/* primitives::Destruct++none::drop<u8> */
static void primitives__Destruct__none__drop__u8(uint8_t v1)
{
    (void)v1;
    return;
}

/* primitives::all_zero */
static bool primitives__all_zero(slice_u8 v1)
{
    bool result;
    uint8_t v2;
    usize v3;
    const uint8_t *v4;
    usize v5;
    bool v6;
    const uint8_t *v7;
    uint8_t v8;
    v2 = 0u;
    v3 = 0u;
    v5 = v1.length;
    for (;;) {
        v6 = v3 < v5;
        if (!v6) {
            break;
        }
        v7 = v1.at + v3;
        v4 = v7;
        v8 = *v4;
        v2 = (uint8_t)((uint32_t)v2 | (uint32_t)v8);
        v3 = v3 + 1u;
    }
    result = v2 == 0u;
    return result;
}

/* primitives::big_endian_4_at */
static uint32_t primitives__big_endian_4_at(slice_u8 v1, usize v2)
{
    uint32_t result;
    const uint8_t *v3;
    uint8_t v4;
    usize v5;
    const uint8_t *v6;
    uint8_t v7;
    usize v8;
    const uint8_t *v9;
    uint8_t v10;
    usize v11;
    const uint8_t *v12;
    uint8_t v13;
    array_u8_4 v14;
    v3 = v1.at + v2;
    v4 = *v3;
    v5 = v2 + 1u;
    v6 = v1.at + v5;
    v7 = *v6;
    v8 = v2 + 2u;
    v9 = v1.at + v8;
    v10 = *v9;
    v11 = v2 + 3u;
    v12 = v1.at + v11;
    v13 = *v12;
    v14 = (array_u8_4){ { v4, v7, v10, v13 } };
    result = core__int__u32__from_be_bytes(v14);
    return result;
}

/* primitives::big_endian_at */
static uint16_t primitives__big_endian_at(slice_u8 v1, usize v2)
{
    uint16_t result;
    const uint8_t *v3;
    uint8_t v4;
    usize v5;
    const uint8_t *v6;
    uint8_t v7;
    array_u8_2 v8;
    v3 = v1.at + v2;
    v4 = *v3;
    v5 = v2 + 1u;
    v6 = v1.at + v5;
    v7 = *v6;
    v8 = (array_u8_2){ { v4, v7 } };
    result = core__int__u16__from_be_bytes(v8);
    return result;
}

/* primitives::clear */
static void primitives__clear(slice_mut_u8 v1)
{
    uint8_t *v3;
    slice_mut_u8 v4;
    v3 = v1.at;
    v4 = (slice_mut_u8){ .at = v3, .length = v1.length };
    core__slice__edits__slice_T__fill__u8(v4, 0u);
    return;
}

/* primitives::little_endian_4_at */
static uint32_t primitives__little_endian_4_at(slice_u8 v1, usize v2)
{
    uint32_t result;
    const uint8_t *v3;
    uint8_t v4;
    usize v5;
    const uint8_t *v6;
    uint8_t v7;
    usize v8;
    const uint8_t *v9;
    uint8_t v10;
    usize v11;
    const uint8_t *v12;
    uint8_t v13;
    array_u8_4 v14;
    v3 = v1.at + v2;
    v4 = *v3;
    v5 = v2 + 1u;
    v6 = v1.at + v5;
    v7 = *v6;
    v8 = v2 + 2u;
    v9 = v1.at + v8;
    v10 = *v9;
    v11 = v2 + 3u;
    v12 = v1.at + v11;
    v13 = *v12;
    v14 = (array_u8_4){ { v4, v7, v10, v13 } };
    result = core__int__u32__from_le_bytes(v14);
    return result;
}

/* primitives::little_endian_at */
static uint16_t primitives__little_endian_at(slice_u8 v1, usize v2)
{
    uint16_t result;
    const uint8_t *v3;
    uint8_t v4;
    usize v5;
    const uint8_t *v6;
    uint8_t v7;
    array_u8_2 v8;
    v3 = v1.at + v2;
    v4 = *v3;
    v5 = v2 + 1u;
    v6 = v1.at + v5;
    v7 = *v6;
    v8 = (array_u8_2){ { v4, v7 } };
    result = core__int__u16__from_le_bytes(v8);
    return result;
}

/* primitives::put */
static void primitives__put(slice_mut_u8 v1, usize v2, slice_u8 v3)
{
    usize v4;
    usize v5;
    bool v6;
    const uint8_t *v7;
    uint8_t v8;
    usize v9;
    uint8_t *v10;
    v4 = 0u;
    v5 = v3.length;
    for (;;) {
        v6 = v4 < v5;
        if (!v6) {
            break;
        }
        v7 = v3.at + v4;
        v8 = *v7;
        v9 = v2 + v4;
        v10 = v1.at + v9;
        *v10 = v8;
        v4 = v4 + 1u;
    }
    return;
}

/* primitives::put_alone */
static void primitives__put_alone(slice_mut_u8 v1, usize v2, slice_u8 v3)
{
    uint8_t *v5;
    slice_mut_u8 v6;
    uint8_t *v7;
    slice_mut_u8 v8;
    v5 = v1.at;
    v6 = (slice_mut_u8){ .at = v5, .length = v1.length };
    primitives__clear(v6);
    v7 = v1.at;
    v8 = (slice_mut_u8){ .at = v7, .length = v1.length };
    primitives__put(v8, v2, v3);
    return;
}

/* primitives::put_big_endian_4 */
static void primitives__put_big_endian_4(slice_mut_u8 v1, usize v2, uint32_t v3)
{
    uint8_t *v5;
    slice_mut_u8 v6;
    array_u8_4 v7;
    array_u8_4 v8;
    const uint8_t *v9;
    slice_u8 v10;
    v5 = v1.at;
    v6 = (slice_mut_u8){ .at = v5, .length = v1.length };
    v7 = core__int__u32__to_be_bytes(v3);
    v8 = v7;
    v9 = v8.at;
    v10 = (slice_u8){ .at = v9, .length = 4u };
    primitives__put(v6, v2, v10);
    return;
}

/* primitives::put_little_endian */
static void primitives__put_little_endian(slice_mut_u8 v1, usize v2, uint16_t v3)
{
    uint8_t *v5;
    slice_mut_u8 v6;
    array_u8_2 v7;
    array_u8_2 v8;
    const uint8_t *v9;
    slice_u8 v10;
    v5 = v1.at;
    v6 = (slice_mut_u8){ .at = v5, .length = v1.length };
    v7 = core__int__u16__to_le_bytes(v3);
    v8 = v7;
    v9 = v8.at;
    v10 = (slice_u8){ .at = v9, .length = 2u };
    primitives__put(v6, v2, v10);
    return;
}

/* primitives::put_little_endian_4 */
static void primitives__put_little_endian_4(slice_mut_u8 v1, usize v2, uint32_t v3)
{
    uint8_t *v5;
    slice_mut_u8 v6;
    array_u8_4 v7;
    array_u8_4 v8;
    const uint8_t *v9;
    slice_u8 v10;
    v5 = v1.at;
    v6 = (slice_mut_u8){ .at = v5, .length = v1.length };
    v7 = core__int__u32__to_le_bytes(v3);
    v8 = v7;
    v9 = v8.at;
    v10 = (slice_u8){ .at = v9, .length = 4u };
    primitives__put(v6, v2, v10);
    return;
}

/* primitives::put_zeros */
static void primitives__put_zeros(slice_mut_u8 v1, usize v2, usize v3)
{
    usize v5;
    uint8_t *v6;
    usize v7;
    uint8_t *v8;
    slice_mut_u8 v9;
    v5 = v2 + v3;
    v6 = v1.at + v2;
    v7 = v5 - v2;
    v8 = v6;
    v9 = (slice_mut_u8){ .at = v8, .length = v7 };
    core__slice__edits__slice_T__fill__u8(v9, 0u);
    return;
}

/* counter::counted */
static uint32_t counter__counted(rules__Direction v1, uint32_t v2, uint32_t v3, uint32_t v4)
{
    uint32_t result;
    uint32_t v5;
    uint32_t v6;
    uint32_t v7;
    switch (v1.tag) {
    case 0u:
        v6 = core__int__u32__saturating_add(v2, v4);
        v5 = core__int__u32__min(v6, v3);
        break;
    case 1u:
    default:
        v7 = core__int__u32__saturating_sub(v2, v4);
        v5 = core__int__u32__max(v7, v3);
        break;
    }
    result = v5;
    return result;
}

/* counter::count */
static void counter__count(slice_mut_u8 v1, rules__Direction v2, uint8_t v3)
{
    uint32_t v4;
    uint32_t v5;
    uint32_t v6;
    const uint8_t *v7;
    slice_u8 v8;
    const uint8_t *v9;
    slice_u8 v10;
    uint32_t v11;
    uint8_t *v13;
    slice_mut_u8 v14;
    v7 = v1.at;
    v8 = (slice_u8){ .at = v7, .length = v1.length };
    v4 = primitives__big_endian_4_at(v8, 0u);
    v9 = v1.at;
    v10 = (slice_u8){ .at = v9, .length = v1.length };
    v5 = primitives__big_endian_4_at(v10, 4u);
    v11 = (uint32_t)v3;
    v6 = counter__counted(v2, v4, v5, v11);
    v13 = v1.at;
    v14 = (slice_mut_u8){ .at = v13, .length = v1.length };
    primitives__put_big_endian_4(v14, 0u, v6);
    return;
}

/* counter::exhausted */
static bool counter__exhausted(slice_u8 v1, rules__Direction v2)
{
    bool result;
    uint32_t v3;
    uint32_t v4;
    bool v5;
    v3 = primitives__big_endian_4_at(v1, 0u);
    v4 = primitives__big_endian_4_at(v1, 4u);
    switch (v2.tag) {
    case 0u:
        v5 = v4 <= v3;
        break;
    case 1u:
    default:
        v5 = v3 <= v4;
        break;
    }
    result = v5;
    return result;
}

/* expression::Destruct++none::drop<u64> */
static void expression__Destruct__none__drop__usize(usize v1)
{
    (void)v1;
    return;
}

/* expression::groups_after */
static core__option__Option__usize expression__groups_after(uint8_t v1, usize v2)
{
    core__option__Option__usize result;
    usize v3;
    usize v4;
    bool v5;
    switch (v1) {
    case 253u:
        v4 = v2;
        break;
    case 254u:
        v4 = v2 - 1u;
        break;
    default:
        v4 = 0u;
        break;
    }
    v3 = v4;
    v5 = 0u < v3;
    result = core__bool__then_some__usize(v5, v3);
    return result;
}

/* expression::is_state */
static bool expression__is_state(uint8_t v1)
{
    bool result;
    bool v2;
    switch (v1) {
    case 1u:
    case 3u:
    case 7u:
    case 15u:
        v2 = true;
        break;
    default:
        v2 = false;
        break;
    }
    result = v2;
    return result;
}

/* expression::condition_allowed */
static bool expression__condition_allowed(slice_u8 v1, usize v2)
{
    bool result;
    bool v3;
    uint8_t v4;
    usize v5;
    const uint8_t *v6;
    uint8_t v7;
    bool v8;
    bool v9;
    bool v10;
    usize v11;
    const uint8_t *v12;
    uint8_t v13;
    bool v14;
    uint8_t v15;
    usize v16;
    usize v17;
    const uint8_t *v18;
    uint8_t v19;
    bool v20;
    bool v21;
    usize v22;
    usize v23;
    const uint8_t *v24;
    uint8_t v25;
    v5 = v2;
    v6 = v1.at + v5;
    v7 = *v6;
    v4 = v7;
    switch (v4) {
    case 112u:
        goto end2;
    default:
        v9 = v4 < 224u;
        if (v9) {
            goto end3;
        }
        v9 = v4 < 226u;
        if (v9) {
            goto end2;
        }
        goto end3;
        end3:;
        v8 = false;
        goto end1;
    }
    end2:;
    v8 = true;
    end1:;
    v3 = v8;
    v10 = !v3;
    if (v10) {
        v11 = v2;
        v12 = v1.at + v11;
        v13 = *v12;
        result = v13 == 64u;
        return result;
    }
    v16 = v2;
    v17 = v16 + 1u;
    v18 = v1.at + v17;
    v19 = *v18;
    v15 = v19;
    v21 = v15 < 250u;
    if (v21) {
        goto end5;
    }
    v21 = v15 < 253u;
    if (v21) {
        v20 = true;
        goto end4;
    }
    goto end5;
    end5:;
    v20 = false;
    end4:;
    v14 = v20;
    if (v14) {
        v22 = v2;
        v23 = v22 + 2u;
        v24 = v1.at + v23;
        v25 = *v24;
        v14 = expression__is_state(v25);
    }
    result = v14;
    return result;
}

/* expression::may_become */
static bool expression__may_become(uint8_t v1, uint8_t v2)
{
    bool result;
    bool v3;
    v3 = expression__is_state(v2);
    if (v3) {
        v3 = v1 <= v2;
    }
    result = v3;
    return result;
}

/* expression::single */
static bool expression__single(uint8_t v1)
{
    bool result;
    bool v2;
    switch (v1) {
    case 0u:
    case 255u:
        v2 = true;
        break;
    default:
        v2 = false;
        break;
    }
    result = v2;
    return result;
}

/* expression::well_formed */
static bool expression__well_formed(slice_u8 v1)
{
    bool result;
    const uint8_t *v2;
    slice_array_u8_4 v3;
    slice_u8 v4;
    usize v5;
    usize v6;
    const uint8_t *v7;
    usize v8;
    bool v9;
    const uint8_t *v10;
    uint8_t v11;
    usize v12;
    bool v13;
    tuple2__slice_array_u8_4__slice_u8 v14;
    usize v15;
    bool v16;
    usize v17;
    const uint8_t *v18;
    bool v19;
    const uint8_t *v20;
    slice_u8 v21;
    bool v22;
    core__option__Option__usize v23;
    const uint8_t *v24;
    const uint8_t *v25;
    uint8_t v26;
    bool v27;
    v9 = v1.length < 1u;
    if (v9) {
        goto end2;
    }
    v9 = v1.length < 2u;
    if (v9) {
        v10 = v1.at + 0u;
        v2 = v10;
        v11 = *v2;
        result = expression__single(v11);
        return result;
    }
    goto end2;
    end2:;
    v12 = v1.length;
    v13 = 27u < v12;
    if (v13) {
        result = false;
        return result;
    }
    v14 = core__simd__chunks__slice_T__as_chunks__u8__4(v1);
    v3 = v14.f0;
    v4 = v14.f1;
    v5 = 3u;
    v6 = 0u;
    v15 = v3.length;
    for (;;) {
        v16 = v6 < v15;
        if (!v16) {
            break;
        }
        v17 = v6 * 4u;
        v18 = v3.at + v17;
        v7 = v18;
        v20 = v7;
        v21 = (slice_u8){ .at = v20, .length = 4u };
        v19 = expression__condition_allowed(v21, 0u);
        v22 = !v19;
        if (v22) {
            result = false;
            return result;
        }
        v24 = v7;
        v25 = v24 + 3u;
        v26 = *v25;
        v23 = expression__groups_after(v26, v5);
        switch (v23.tag) {
        case 1u:
            v8 = v23.as.v1.f1;
            break;
        case 0u:
        default:
            result = false;
            return result;
        }
        v5 = v8;
        v6 = v6 + 1u;
    }
    v12 = v4.length;
    v27 = v12 == 3u;
    if (v27) {
        v27 = expression__condition_allowed(v4, 0u);
    }
    result = v27;
    return result;
}

/* queue::fare_end */
static core__option__Option__usize queue__fare_end(slice_u8 v1, uint32_t v2)
{
    core__option__Option__usize result;
    usize v3;
    usize v4;
    usize v5;
    bool v6;
    uint16_t v7;
    uint32_t v8;
    v3 = 4u;
    for (;;) {
        v5 = v1.length;
        v6 = v3 < v5;
        if (!v6) {
            break;
        }
        v7 = primitives__little_endian_at(v1, v3);
        v5 = (usize)v7;
        v4 = v3 + v5;
        v5 = v3 + 4u;
        v8 = primitives__little_endian_4_at(v1, v5);
        v6 = v8 == v2;
        if (v6) {
            result = (core__option__Option__usize){ .tag = 1u, .as.v1.f1 = v4 };
            return result;
        }
        v3 = v4;
    }
    result = (core__option__Option__usize){ .tag = 0u };
    return result;
}

/* queue::fare_ok */
static bool queue__fare_ok(slice_u8 v1, usize v2, uint32_t v3)
{
    bool result;
    usize v4;
    usize v5;
    usize v6;
    bool v7;
    uint16_t v8;
    bool v9;
    bool v10;
    bool v11;
    bool v12;
    uint16_t v13;
    usize v14;
    uint32_t v15;
    usize v16;
    v6 = v1.length;
    v4 = v6 - v2;
    v7 = v4 < 9u;
    if (v7) {
        result = false;
        return result;
    }
    v8 = primitives__little_endian_at(v1, v2);
    v5 = (usize)v8;
    v12 = 9u <= v5;
    if (v12) {
        v12 = v5 <= 208u;
    }
    v11 = v12;
    if (v11) {
        v11 = v5 <= v4;
    }
    v10 = v11;
    if (v10) {
        v14 = v2 + 2u;
        v13 = primitives__little_endian_at(v1, v14);
        v10 = v13 == 1u;
    }
    v9 = v10;
    if (v9) {
        v16 = v2 + 4u;
        v15 = primitives__little_endian_4_at(v1, v16);
        v9 = v15 == v3;
    }
    result = v9;
    return result;
}

/* queue::first_number */
static uint32_t queue__first_number(slice_u8 v1)
{
    uint32_t result;
    usize v2;
    usize v3;
    bool v4;
    v2 = v1.length;
    v3 = (usize)4u + 8u;
    v4 = v2 < v3;
    if (v4) {
        result = primitives__little_endian_4_at(v1, 0u);
        return result;
    }
    v2 = (usize)4u + 4u;
    result = primitives__little_endian_4_at(v1, v2);
    return result;
}

/* queue::check */
static bool queue__check(slice_u8 v1)
{
    bool result;
    uint32_t v2;
    usize v3;
    uint32_t v4;
    usize v5;
    bool v6;
    bool v7;
    bool v8;
    uint16_t v9;
    usize v10;
    v5 = v1.length;
    v6 = v5 < 4u;
    if (v6) {
        result = false;
        return result;
    }
    v2 = primitives__little_endian_4_at(v1, 0u);
    v3 = 4u;
    v4 = queue__first_number(v1);
    for (;;) {
        v7 = v4 < v2;
        if (!v7) {
            break;
        }
        v7 = queue__fare_ok(v1, v3, v4);
        v8 = !v7;
        if (v8) {
            result = false;
            return result;
        }
        v9 = primitives__little_endian_at(v1, v3);
        v10 = (usize)v9;
        v3 = v3 + v10;
        v4 = v4 + 1u;
    }
    v5 = v1.length;
    result = v3 == v5;
    return result;
}

/* queue::move_down */
static void queue__move_down(slice_mut_u8 v1, usize v2, usize v3, usize v4)
{
    usize v5;
    bool v6;
    usize v7;
    uint8_t *v8;
    uint8_t v9;
    usize v10;
    uint8_t *v11;
    v5 = 0u;
    for (;;) {
        v6 = v5 < v4;
        if (!v6) {
            break;
        }
        v7 = v3 + v5;
        v8 = v1.at + v7;
        v9 = *v8;
        v10 = v2 + v5;
        v11 = v1.at + v10;
        *v11 = v9;
        v5 = v5 + 1u;
    }
    return;
}

/* queue::drop_front */
static rules__Length queue__drop_front(slice_mut_u8 v1, rules__Length v2, rules__Offset v3)
{
    rules__Length result;
    usize v4;
    usize v5;
    uint8_t *v7;
    slice_mut_u8 v8;
    uint8_t *v9;
    slice_mut_u8 v10;
    usize v11;
    v4 = v2.f0 - v3.f0;
    v5 = (usize)4u + v4;
    v7 = v1.at;
    v8 = (slice_mut_u8){ .at = v7, .length = v1.length };
    queue__move_down(v8, 4u, v3.f0, v4);
    v9 = v1.at;
    v10 = (slice_mut_u8){ .at = v9, .length = v1.length };
    v11 = v2.f0 - v5;
    primitives__put_zeros(v10, v5, v11);
    result = (rules__Length){ .f0 = v5 };
    return result;
}

/* queue::acknowledge */
static rules__Length queue__acknowledge(slice_mut_u8 v1, rules__Length v2, uint32_t v3)
{
    rules__Length result;
    usize v4;
    core__option__Option__usize v5;
    const uint8_t *v6;
    slice_u8 v7;
    uint8_t *v8;
    slice_mut_u8 v9;
    rules__Offset v10;
    v6 = v1.at;
    v7 = (slice_u8){ .at = v6, .length = v2.f0 };
    v5 = queue__fare_end(v7, v3);
    switch (v5.tag) {
    case 1u:
        v4 = v5.as.v1.f1;
        break;
    case 0u:
    default:
        result = v2;
        return result;
    }
    v8 = v1.at;
    v9 = (slice_mut_u8){ .at = v8, .length = v1.length };
    v10 = (rules__Offset){ .f0 = v4 };
    result = queue__drop_front(v9, v2, v10);
    return result;
}

/* queue::next_number */
static uint32_t queue__next_number(slice_u8 v1)
{
    uint32_t result;
    result = primitives__little_endian_4_at(v1, 0u);
    return result;
}

/* queue::is_present */
static bool queue__is_present(slice_u8 v1, uint32_t v2)
{
    bool result;
    bool v3;
    uint32_t v4;
    uint32_t v5;
    v4 = queue__first_number(v1);
    v3 = v4 <= v2;
    if (v3) {
        v5 = queue__next_number(v1);
        v3 = v2 < v5;
    }
    result = v3;
    return result;
}

/* queue::put_fare */
static void queue__put_fare(slice_mut_u8 v1, usize v2, uint32_t v3, slice_u8 v4)
{
    uint8_t *v6;
    slice_mut_u8 v7;
    usize v8;
    usize v9;
    uint16_t v10;
    uint8_t *v11;
    slice_mut_u8 v12;
    uint8_t *v13;
    slice_mut_u8 v14;
    uint8_t *v15;
    slice_mut_u8 v16;
    v6 = v1.at;
    v7 = (slice_mut_u8){ .at = v6, .length = v1.length };
    v8 = v4.length;
    v9 = (usize)8u + v8;
    v10 = (uint16_t)v9;
    primitives__put_little_endian(v7, v2, v10);
    v11 = v1.at;
    v12 = (slice_mut_u8){ .at = v11, .length = v1.length };
    v8 = v2 + 2u;
    primitives__put_little_endian(v12, v8, 1u);
    v13 = v1.at;
    v14 = (slice_mut_u8){ .at = v13, .length = v1.length };
    v9 = v2 + 4u;
    primitives__put_little_endian_4(v14, v9, v3);
    v15 = v1.at;
    v16 = (slice_mut_u8){ .at = v15, .length = v1.length };
    v8 = v2 + 8u;
    primitives__put(v16, v8, v4);
    return;
}

/* queue::append */
static rules__Length queue__append(slice_mut_u8 v1, rules__Length v2, slice_u8 v3)
{
    rules__Length result;
    usize v4;
    uint32_t v5;
    const uint8_t *v6;
    slice_u8 v7;
    uint8_t *v9;
    slice_mut_u8 v10;
    uint8_t *v11;
    slice_mut_u8 v12;
    uint32_t v13;
    usize v14;
    usize v15;
    usize v16;
    v4 = v2.f0;
    v6 = v1.at;
    v7 = (slice_u8){ .at = v6, .length = v1.length };
    v5 = primitives__little_endian_4_at(v7, 0u);
    v9 = v1.at;
    v10 = (slice_mut_u8){ .at = v9, .length = v1.length };
    queue__put_fare(v10, v4, v5, v3);
    v11 = v1.at;
    v12 = (slice_mut_u8){ .at = v11, .length = v1.length };
    v13 = v5 + 1u;
    primitives__put_little_endian_4(v12, 0u, v13);
    v14 = v4 + 8u;
    v15 = v3.length;
    v16 = v14 + v15;
    result = (rules__Length){ .f0 = v16 };
    return result;
}

/* reader::MetadataReader::new */
static reader__MetadataReader reader__MetadataReader__new(slice_u8 v1, usize v2)
{
    reader__MetadataReader result;
    result = (reader__MetadataReader){ .f0 = v1, .f1 = v2 };
    return result;
}

/* reader::step_from */
static reader__Step reader__step_from(slice_u8 v1, usize v2)
{
    reader__Step result;
    reader__Step v3;
    const uint8_t *v4;
    const uint8_t *v5;
    slice_u8 v6;
    usize v7;
    reader__Field v8;
    usize v9;
    bool v10;
    core__option__Option__Result__reader__Field__reader__Malformed v11;
    core__result__Result__reader__Field__reader__Malformed v13;
    core__option__Option__Result__reader__Field__reader__Malformed v14;
    slice_u8 v15;
    const uint8_t *v16;
    const uint8_t *v17;
    bool v18;
    const uint8_t *v19;
    const uint8_t *v20;
    const uint8_t *v21;
    usize v22;
    const uint8_t *v23;
    uint8_t v24;
    const uint8_t *v25;
    slice_u8 v26;
    reader__Field v27;
    usize v28;
    usize v29;
    v9 = v1.length;
    v10 = v9 <= v2;
    if (v10) {
        v11 = (core__option__Option__Result__reader__Field__reader__Malformed){ .tag = 0u };
        result = (reader__Step){ .f0 = v11, .f1 = v2 };
        return result;
    }
    v13 = (core__result__Result__reader__Field__reader__Malformed){ .tag = 1u };
    v14 = (core__option__Option__Result__reader__Field__reader__Malformed){ .tag = 1u, .as.v1.f1 = v13 };
    v3 = (reader__Step){ .f0 = v14, .f1 = v2 };
    v16 = v1.at + v2;
    v9 = v1.length - v2;
    v17 = v16;
    v15 = (slice_u8){ .at = v17, .length = v9 };
    v18 = v15.length < 2u;
    if (v18) {
        result = v3;
        return result;
    }
    v19 = v15.at + 0u;
    v20 = v15.at + 1u;
    v21 = v15.at + 2u;
    v22 = v15.length - 2u;
    v4 = v19;
    v5 = v20;
    v23 = v21;
    v6 = (slice_u8){ .at = v23, .length = v22 };
    v24 = *v5;
    v7 = (usize)v24;
    v9 = v6.length;
    v10 = v9 < v7;
    if (v10) {
        result = v3;
        return result;
    }
    v24 = *v4;
    v25 = v6.at;
    v26 = (slice_u8){ .at = v25, .length = v7 };
    v8 = (reader__Field){ .f0 = v24, .f1 = v26 };
    v27 = v8;
    v13 = (core__result__Result__reader__Field__reader__Malformed){ .tag = 0u, .as.v0.f1 = v27 };
    v14 = (core__option__Option__Result__reader__Field__reader__Malformed){ .tag = 1u, .as.v1.f1 = v13 };
    v9 = v2 + 2u;
    v28 = v8.f1.length;
    v29 = v9 + v28;
    result = (reader__Step){ .f0 = v14, .f1 = v29 };
    return result;
}

/* reader::MetadataReader::advance */
static core__option__Option__Result__reader__Field__reader__Malformed reader__MetadataReader__advance(reader__MetadataReader *v1)
{
    core__option__Option__Result__reader__Field__reader__Malformed result;
    reader__Step v2;
    slice_u8 v3;
    usize v4;
    usize v5;
    v3 = v1->f0;
    v4 = v1->f1;
    v2 = reader__step_from(v3, v4);
    v5 = v2.f1;
    v1->f1 = v5;
    result = v2.f0;
    return result;
}

/* record::StoredObject::at */
static record__StoredObject record__StoredObject__at(slice_u8 v1, usize v2)
{
    record__StoredObject result;
    result = (record__StoredObject){ .f0 = v1, .f1 = v2 };
    return result;
}

/* record::counted */
static slice_u8 record__counted(slice_u8 v1, usize v2)
{
    slice_u8 result;
    usize v3;
    const uint8_t *v4;
    uint8_t v5;
    usize v6;
    usize v7;
    const uint8_t *v8;
    usize v9;
    const uint8_t *v10;
    v3 = v2 + 1u;
    v4 = v1.at + v2;
    v5 = *v4;
    v6 = (usize)v5;
    v7 = v3 + v6;
    v8 = v1.at + v3;
    v9 = v7 - v3;
    v10 = v8;
    result = (slice_u8){ .at = v10, .length = v9 };
    return result;
}

/* record::counter_sizes */
static bool record__counter_sizes(rules__Length v1, slice_u8 v2)
{
    bool result;
    bool v3;
    usize v4;
    v3 = v1.f0 == 8u;
    if (v3) {
        v4 = v2.length;
        v3 = v4 == 8u;
    }
    result = v3;
    return result;
}

/* record::StoredObject::data */
static slice_u8 record__StoredObject__data(const record__StoredObject *v1, rules__Offset v2, rules__Length v3)
{
    slice_u8 result;
    usize v4;
    usize v5;
    usize v6;
    slice_u8 v7;
    const uint8_t *v8;
    const uint8_t *v9;
    v5 = v1->f1;
    v6 = v5 + 96u;
    v4 = v6 + v2.f0;
    v7 = v1->f0;
    v5 = v4 + v3.f0;
    v8 = v7.at + v4;
    v6 = v5 - v4;
    v9 = v8;
    result = (slice_u8){ .at = v9, .length = v6 };
    return result;
}

/* record::data_end */
static usize record__data_end(slice_u8 v1, usize v2)
{
    usize result;
    usize v3;
    uint16_t v4;
    usize v5;
    usize v6;
    v3 = v2 + 96u;
    v5 = v2 + 6u;
    v4 = primitives__little_endian_at(v1, v5);
    v6 = (usize)v4;
    result = v3 + v6;
    return result;
}

/* record::filled_by_condition */
static bool record__filled_by_condition(slice_u8 v1)
{
    bool result;
    bool v2;
    const uint8_t *v3;
    usize v4;
    const uint8_t *v5;
    slice_u8 v6;
    v2 = expression__condition_allowed(v1, 1u);
    if (v2) {
        v3 = v1.at + 4u;
        v4 = (usize)28u - 4u;
        v5 = v3;
        v6 = (slice_u8){ .at = v5, .length = v4 };
        v2 = primitives__all_zero(v6);
    }
    result = v2;
    return result;
}

/* record::filled_by_one */
static bool record__filled_by_one(slice_u8 v1)
{
    bool result;
    bool v2;
    const uint8_t *v3;
    uint8_t v4;
    const uint8_t *v5;
    usize v6;
    const uint8_t *v7;
    slice_u8 v8;
    v3 = v1.at + 1u;
    v4 = *v3;
    v2 = expression__single(v4);
    if (v2) {
        v5 = v1.at + 2u;
        v6 = (usize)28u - 2u;
        v7 = v5;
        v8 = (slice_u8){ .at = v7, .length = v6 };
        v2 = primitives__all_zero(v8);
    }
    result = v2;
    return result;
}

/* record::in_session */
static bool record__in_session(rules__ObjectNumber v1)
{
    bool result;
    bool v2;
    switch (v1.f0) {
    case 57536u:
    case 61888u:
    case 61890u:
        v2 = true;
        break;
    default:
        v2 = false;
        break;
    }
    result = v2;
    return result;
}

/* record::head_ok */
static bool record__head_ok(slice_u8 v1)
{
    bool result;
    usize v2;
    uint16_t v3;
    bool v4;
    bool v5;
    bool v6;
    bool v7;
    bool v8;
    bool v9;
    bool v10;
    uint16_t v11;
    usize v12;
    bool v13;
    uint16_t v14;
    rules__ObjectNumber v15;
    usize v16;
    usize v17;
    uint16_t v18;
    const uint8_t *v19;
    uint8_t v20;
    const uint8_t *v21;
    uint8_t v22;
    v2 = v1.length;
    v4 = v2 < 97u;
    if (v4) {
        result = false;
        return result;
    }
    v3 = primitives__little_endian_at(v1, 6u);
    v11 = primitives__little_endian_at(v1, 0u);
    v12 = (usize)v11;
    v10 = v12 == v2;
    if (v10) {
        v14 = primitives__little_endian_at(v1, 4u);
        v15 = (rules__ObjectNumber){ .f0 = v14 };
        v13 = record__in_session(v15);
        v10 = !v13;
    }
    v9 = v10;
    if (v9) {
        v16 = (usize)v3;
        v17 = v2 - 96u;
        v9 = v16 == v17;
    }
    v8 = v9;
    if (v8) {
        v8 = v3 <= 1500u;
    }
    v7 = v8;
    if (v7) {
        v18 = primitives__little_endian_at(v1, 8u);
        v7 = v18 <= v3;
    }
    v6 = v7;
    if (v6) {
        v19 = v1.at + 10u;
        v20 = *v19;
        v6 = expression__is_state(v20);
    }
    v5 = v6;
    if (v5) {
        v21 = v1.at + 11u;
        v22 = *v21;
        v5 = v22 == 0u;
    }
    result = v5;
    return result;
}

/* record::StoredObject::kind */
static rules__Kind record__StoredObject__kind(const record__StoredObject *v1)
{
    rules__Kind result;
    uint16_t v2;
    rules__Kind v3;
    slice_u8 v4;
    usize v5;
    usize v6;
    core__result__Result__rules__Kind__rules__UnknownKind v7;
    v4 = v1->f0;
    v5 = v1->f1;
    v6 = v5 + 2u;
    v2 = primitives__little_endian_at(v4, v6);
    v7 = rules__KindTryFromU16__try_from(v2);
    switch (v7.tag) {
    case 0u:
        v3 = v7.as.v0.f1;
        break;
    case 1u:
    default:
        core__assertions__unreachable();
        for (;;) { /* never */
        }
    }
    result = v3;
    return result;
}

/* record::StoredObject::direction */
static rules__Direction record__StoredObject__direction(const record__StoredObject *v1)
{
    rules__Direction result;
    rules__Direction v2;
    rules__Kind v3;
    rules__Direction v4;
    v3 = record__StoredObject__kind(v1);
    switch (v3.tag) {
    case 1u:
        v2 = v3.as.v1.f1;
        v4 = v2;
        break;
    case 0u:
    case 2u:
    case 3u:
    case 4u:
    default:
        v4 = (rules__Direction){ .tag = 0u };
        break;
    }
    result = v4;
    return result;
}

/* record::StoredObject::is_counter */
static bool record__StoredObject__is_counter(const record__StoredObject *v1)
{
    bool result;
    rules__Kind v2;
    bool v3;
    v2 = record__StoredObject__kind(v1);
    switch (v2.tag) {
    case 1u:
        v3 = true;
        break;
    case 0u:
    case 2u:
    case 3u:
    case 4u:
    default:
        v3 = false;
        break;
    }
    result = v3;
    return result;
}

/* record::StoredObject::is_exhausted */
static bool record__StoredObject__is_exhausted(const record__StoredObject *v1)
{
    bool result;
    usize v2;
    usize v3;
    slice_u8 v4;
    const uint8_t *v5;
    usize v6;
    const uint8_t *v7;
    slice_u8 v8;
    rules__Direction v9;
    v3 = v1->f1;
    v2 = v3 + 96u;
    v4 = v1->f0;
    v3 = v2 + 8u;
    v5 = v4.at + v2;
    v6 = v3 - v2;
    v7 = v5;
    v8 = (slice_u8){ .at = v7, .length = v6 };
    v9 = record__StoredObject__direction(v1);
    result = counter__exhausted(v8, v9);
    return result;
}

/* record::StoredObject::is_queue */
static bool record__StoredObject__is_queue(const record__StoredObject *v1)
{
    bool result;
    rules__Kind v2;
    bool v3;
    v2 = record__StoredObject__kind(v1);
    switch (v2.tag) {
    case 2u:
        v3 = true;
        break;
    case 0u:
    case 1u:
    case 3u:
    case 4u:
    default:
        v3 = false;
        break;
    }
    result = v3;
    return result;
}

/* record::StoredObject::is_up_counter */
static bool record__StoredObject__is_up_counter(const record__StoredObject *v1)
{
    bool result;
    rules__Direction v2;
    rules__Kind v3;
    bool v4;
    bool v5;
    v3 = record__StoredObject__kind(v1);
    switch (v3.tag) {
    case 1u:
        v2 = v3.as.v1.f1;
        switch (v2.tag) {
        case 0u:
            v5 = true;
            break;
        case 1u:
        default:
            v5 = false;
            break;
        }
        v4 = v5;
        break;
    case 0u:
    case 2u:
    case 3u:
    case 4u:
    default:
        v4 = false;
        break;
    }
    result = v4;
    return result;
}

/* record::kind_ok */
static bool record__kind_ok(uint16_t v1, rules__Length v2, slice_u8 v3)
{
    bool result;
    rules__Kind v4;
    core__result__Result__rules__Kind__rules__UnknownKind v5;
    bool v6;
    v5 = rules__KindTryFromU16__try_from(v1);
    switch (v5.tag) {
    case 0u:
        v4 = v5.as.v0.f1;
        break;
    case 1u:
    default:
        result = false;
        return result;
    }
    switch (v4.tag) {
    case 0u:
        v6 = true;
        break;
    case 1u:
        v6 = record__counter_sizes(v2, v3);
        break;
    case 2u:
        v6 = queue__check(v3);
        break;
    case 3u:
    case 4u:
    default:
        v6 = false;
        break;
    }
    result = v6;
    return result;
}

/* record::StoredObject::lcso */
static uint8_t record__StoredObject__lcso(const record__StoredObject *v1)
{
    uint8_t result;
    usize v2;
    usize v3;
    const uint8_t *v4;
    uint8_t v5;
    v2 = v1->f1;
    v3 = v2 + 10u;
    v4 = v1->f0.at + v3;
    v5 = *v4;
    result = v5;
    return result;
}

/* record::length_at */
static usize record__length_at(slice_u8 v1, usize v2)
{
    usize result;
    uint16_t v3;
    v3 = primitives__little_endian_at(v1, v2);
    result = (usize)v3;
    return result;
}

/* record::StoredObject::maximum */
static rules__Length record__StoredObject__maximum(const record__StoredObject *v1)
{
    rules__Length result;
    uint16_t v2;
    slice_u8 v3;
    usize v4;
    usize v5;
    usize v6;
    v3 = v1->f0;
    v4 = v1->f1;
    v5 = v4 + 6u;
    v2 = primitives__little_endian_at(v3, v5);
    v6 = (usize)v2;
    result = (rules__Length){ .f0 = v6 };
    return result;
}

/* record::number_at */
static rules__ObjectNumber record__number_at(slice_u8 v1, usize v2)
{
    rules__ObjectNumber result;
    uint16_t v3;
    usize v4;
    v4 = v2 + 4u;
    v3 = primitives__little_endian_at(v1, v4);
    result = (rules__ObjectNumber){ .f0 = v3 };
    return result;
}

/* record::put_fixed */
static void record__put_fixed(slice_mut_u8 v1, rules__ObjectNumber v2, rules__Length v3)
{
    uint8_t *v5;
    slice_mut_u8 v6;
    usize v7;
    uint16_t v8;
    uint8_t *v9;
    slice_mut_u8 v10;
    uint8_t *v11;
    slice_mut_u8 v12;
    uint8_t *v13;
    slice_mut_u8 v14;
    uint8_t *v15;
    slice_mut_u8 v16;
    uint8_t *v17;
    slice_mut_u8 v18;
    const uint8_t *v19;
    const uint8_t *v20;
    slice_u8 v21;
    static const uint8_t lent1[2] = { 1u, 0u };
    v5 = v1.at;
    v6 = (slice_mut_u8){ .at = v5, .length = v1.length };
    v7 = (usize)96u + v3.f0;
    v8 = (uint16_t)v7;
    primitives__put_little_endian(v6, 0u, v8);
    v9 = v1.at;
    v10 = (slice_mut_u8){ .at = v9, .length = v1.length };
    primitives__put_little_endian(v10, 2u, 1u);
    v11 = v1.at;
    v12 = (slice_mut_u8){ .at = v11, .length = v1.length };
    primitives__put_little_endian(v12, 4u, v2.f0);
    v13 = v1.at;
    v14 = (slice_mut_u8){ .at = v13, .length = v1.length };
    v8 = (uint16_t)v3.f0;
    primitives__put_little_endian(v14, 6u, v8);
    v15 = v1.at;
    v16 = (slice_mut_u8){ .at = v15, .length = v1.length };
    primitives__put_little_endian(v16, 8u, 0u);
    v17 = v1.at;
    v18 = (slice_mut_u8){ .at = v17, .length = v1.length };
    v19 = lent1;
    v20 = v19;
    v21 = (slice_u8){ .at = v20, .length = 2u };
    primitives__put(v18, 10u, v21);
    return;
}

/* record::put_slot */
static void record__put_slot(slice_mut_u8 v1, usize v2, slice_u8 v3)
{
    usize v4;
    uint8_t v5;
    uint8_t *v6;
    uint8_t *v8;
    slice_mut_u8 v9;
    usize v10;
    uint8_t *v11;
    slice_mut_u8 v12;
    usize v13;
    usize v14;
    usize v15;
    v4 = v3.length;
    v5 = (uint8_t)v4;
    v6 = v1.at + v2;
    *v6 = v5;
    v8 = v1.at;
    v9 = (slice_mut_u8){ .at = v8, .length = v1.length };
    v10 = v2 + 1u;
    primitives__put(v9, v10, v3);
    v11 = v1.at;
    v12 = (slice_mut_u8){ .at = v11, .length = v1.length };
    v10 = v2 + 1u;
    v13 = v10 + v4;
    v14 = (usize)28u - 1u;
    v15 = v14 - v4;
    primitives__put_zeros(v12, v13, v15);
    return;
}

/* record::set_used */
static void record__set_used(slice_mut_u8 v1, usize v2, usize v3)
{
    uint8_t *v5;
    slice_mut_u8 v6;
    usize v7;
    uint16_t v8;
    v5 = v1.at;
    v6 = (slice_mut_u8){ .at = v5, .length = v1.length };
    v7 = v2 + 8u;
    v8 = (uint16_t)v3;
    primitives__put_little_endian(v6, v7, v8);
    return;
}

/* record::slot_at */
static usize record__slot_at(rules__Slot v1)
{
    usize result;
    usize v2;
    switch (v1.tag) {
    case 0u:
        v2 = 12u;
        break;
    case 1u:
        v2 = 40u;
        break;
    case 2u:
    default:
        v2 = 68u;
        break;
    }
    result = v2;
    return result;
}

/* record::StoredObject::expression */
static slice_u8 record__StoredObject__expression(const record__StoredObject *v1, rules__Slot v2)
{
    slice_u8 result;
    slice_u8 v3;
    usize v4;
    usize v5;
    usize v6;
    v3 = v1->f0;
    v4 = v1->f1;
    v5 = record__slot_at(v2);
    v6 = v4 + v5;
    result = record__counted(v3, v6);
    return result;
}

/* record::StoredObject::used */
static rules__Length record__StoredObject__used(const record__StoredObject *v1)
{
    rules__Length result;
    uint16_t v2;
    slice_u8 v3;
    usize v4;
    usize v5;
    usize v6;
    v3 = v1->f0;
    v4 = v1->f1;
    v5 = v4 + 8u;
    v2 = primitives__little_endian_at(v3, v5);
    v6 = (usize)v2;
    result = (rules__Length){ .f0 = v6 };
    return result;
}

/* record::StoredObject::content */
static slice_u8 record__StoredObject__content(const record__StoredObject *v1)
{
    slice_u8 result;
    usize v2;
    usize v3;
    usize v4;
    rules__Length v5;
    slice_u8 v6;
    const uint8_t *v7;
    const uint8_t *v8;
    v4 = v1->f1;
    v2 = v4 + 96u;
    v5 = record__StoredObject__used(v1);
    v3 = v2 + v5.f0;
    v6 = v1->f0;
    v7 = v6.at + v2;
    v4 = v3 - v2;
    v8 = v7;
    result = (slice_u8){ .at = v8, .length = v4 };
    return result;
}

/* record::zero_from */
static bool record__zero_from(slice_u8 v1, usize v2)
{
    bool result;
    bool v3;
    const uint8_t *v4;
    usize v5;
    const uint8_t *v6;
    slice_u8 v7;
    bool v8;
    const uint8_t *v9;
    usize v10;
    const uint8_t *v11;
    slice_u8 v12;
    const uint8_t *v13;
    usize v14;
    const uint8_t *v15;
    slice_u8 v16;
    v3 = 12u < v2;
    if (v3) {
        v4 = v1.at + v2;
        v5 = (usize)28u - v2;
        v6 = v4;
        v7 = (slice_u8){ .at = v6, .length = v5 };
        result = primitives__all_zero(v7);
        return result;
    }
    v9 = v1.at + 12u;
    v10 = (usize)28u - 12u;
    v11 = v9;
    v12 = (slice_u8){ .at = v11, .length = v10 };
    v8 = primitives__all_zero(v12);
    if (v8) {
        v13 = v1.at + v2;
        v14 = (usize)12u - v2;
        v15 = v13;
        v16 = (slice_u8){ .at = v15, .length = v14 };
        v8 = primitives__all_zero(v16);
    }
    result = v8;
    return result;
}

/* record::filled */
static bool record__filled(slice_u8 v1, usize v2)
{
    bool result;
    bool v3;
    usize v4;
    const uint8_t *v5;
    usize v6;
    const uint8_t *v7;
    slice_u8 v8;
    usize v9;
    v4 = v2 + 1u;
    v5 = v1.at + 1u;
    v6 = v4 - 1u;
    v7 = v5;
    v8 = (slice_u8){ .at = v7, .length = v6 };
    v3 = expression__well_formed(v8);
    if (v3) {
        v9 = v2 + 1u;
        v3 = record__zero_from(v1, v9);
    }
    result = v3;
    return result;
}

/* record::slot_ok */
static bool record__slot_ok(slice_u8 v1)
{
    bool result;
    usize v2;
    const uint8_t *v3;
    uint8_t v4;
    bool v5;
    bool v6;
    v3 = v1.at + 0u;
    v4 = *v3;
    v2 = (usize)v4;
    switch (v2) {
    case 1u:
        v5 = record__filled_by_one(v1);
        break;
    case 3u:
        v5 = record__filled_by_condition(v1);
        break;
    default:
        v6 = v2 < 28u;
        if (v6) {
            v6 = record__filled(v1, v2);
        }
        v5 = v6;
        break;
    }
    result = v5;
    return result;
}

/* record::slots_ok */
static bool record__slots_ok(slice_u8 v1)
{
    bool result;
    usize v2;
    usize v3;
    bool v4;
    usize v5;
    const uint8_t *v6;
    usize v7;
    const uint8_t *v8;
    slice_u8 v9;
    bool v10;
    v2 = 0u;
    for (;;) {
        v4 = v2 < 3u;
        if (!v4) {
            break;
        }
        v5 = v2 * 28u;
        v3 = (usize)12u + v5;
        v5 = v3 + 28u;
        v6 = v1.at + v3;
        v7 = v5 - v3;
        v8 = v6;
        v9 = (slice_u8){ .at = v8, .length = v7 };
        v4 = record__slot_ok(v9);
        v10 = !v4;
        if (v10) {
            result = false;
            return result;
        }
        v2 = v2 + 1u;
    }
    result = true;
    return result;
}

/* record::body_ok */
static bool record__body_ok(slice_u8 v1)
{
    bool result;
    uint16_t v2;
    rules__Length v3;
    usize v4;
    uint16_t v5;
    usize v6;
    bool v7;
    bool v8;
    const uint8_t *v9;
    const uint8_t *v10;
    slice_u8 v11;
    const uint8_t *v12;
    usize v13;
    const uint8_t *v14;
    slice_u8 v15;
    v2 = primitives__little_endian_at(v1, 2u);
    v5 = primitives__little_endian_at(v1, 6u);
    v6 = (usize)v5;
    v3 = (rules__Length){ .f0 = v6 };
    v5 = primitives__little_endian_at(v1, 8u);
    v6 = (usize)v5;
    v4 = (usize)96u + v6;
    v9 = v1.at + 96u;
    v6 = v4 - 96u;
    v10 = v9;
    v11 = (slice_u8){ .at = v10, .length = v6 };
    v8 = record__kind_ok(v2, v3, v11);
    if (v8) {
        v8 = record__slots_ok(v1);
    }
    v7 = v8;
    if (v7) {
        v12 = v1.at + v4;
        v13 = v1.length - v4;
        v14 = v12;
        v15 = (slice_u8){ .at = v14, .length = v13 };
        v7 = primitives__all_zero(v15);
    }
    result = v7;
    return result;
}

/* record::record_ok */
static bool record__record_ok(slice_u8 v1)
{
    bool result;
    bool v2;
    v2 = record__head_ok(v1);
    if (v2) {
        v2 = record__body_ok(v1);
    }
    result = v2;
    return result;
}

/* change::count */
static void change__count(slice_mut_u8 v1, usize v2, uint8_t v3)
{
    rules__Direction v4;
    usize v5;
    usize v6;
    record__StoredObject v7;
    const uint8_t *v8;
    slice_u8 v9;
    record__StoredObject v10;
    const record__StoredObject *v11;
    const uint8_t *v12;
    slice_u8 v13;
    uint8_t *v15;
    usize v16;
    uint8_t *v17;
    slice_mut_u8 v18;
    v8 = v1.at;
    v9 = (slice_u8){ .at = v8, .length = v1.length };
    v7 = record__StoredObject__at(v9, v2);
    v10 = v7;
    v11 = &v10;
    v4 = record__StoredObject__direction(v11);
    v5 = v2 + 96u;
    v12 = v1.at;
    v13 = (slice_u8){ .at = v12, .length = v1.length };
    v6 = record__data_end(v13, v2);
    v15 = v1.at + v5;
    v16 = v6 - v5;
    v17 = v15;
    v18 = (slice_mut_u8){ .at = v17, .length = v16 };
    counter__count(v18, v4, v3);
    return;
}

/* change::erase_and_write */
static void change__erase_and_write(slice_mut_u8 v1, usize v2, rules__Offset v3, slice_u8 v4)
{
    usize v5;
    usize v6;
    usize v7;
    usize v8;
    usize v9;
    const uint8_t *v10;
    slice_u8 v11;
    uint8_t *v13;
    slice_mut_u8 v14;
    uint8_t *v15;
    uint8_t *v16;
    slice_mut_u8 v17;
    v5 = v3.f0;
    v9 = v4.length;
    v6 = v5 + v9;
    v7 = v2 + 96u;
    v10 = v1.at;
    v11 = (slice_u8){ .at = v10, .length = v1.length };
    v8 = record__data_end(v11, v2);
    v13 = v1.at;
    v14 = (slice_mut_u8){ .at = v13, .length = v1.length };
    record__set_used(v14, v2, v6);
    v15 = v1.at + v7;
    v9 = v8 - v7;
    v16 = v15;
    v17 = (slice_mut_u8){ .at = v16, .length = v9 };
    primitives__put_alone(v17, v5, v4);
    return;
}

/* change::set_expression */
static void change__set_expression(slice_mut_u8 v1, usize v2, rules__Slot v3, slice_u8 v4)
{
    uint8_t *v6;
    slice_mut_u8 v7;
    usize v8;
    usize v9;
    v6 = v1.at;
    v7 = (slice_mut_u8){ .at = v6, .length = v1.length };
    v8 = record__slot_at(v3);
    v9 = v2 + v8;
    record__put_slot(v7, v9, v4);
    return;
}

/* change::set_lcso */
static void change__set_lcso(slice_mut_u8 v1, usize v2, uint8_t v3)
{
    usize v4;
    uint8_t *v5;
    v4 = v2 + 10u;
    v5 = v1.at + v4;
    *v5 = v3;
    return;
}

/* change::write */
static void change__write(slice_mut_u8 v1, usize v2, rules__Offset v3, slice_u8 v4)
{
    usize v5;
    usize v6;
    usize v7;
    usize v8;
    usize v9;
    usize v10;
    rules__Length v11;
    record__StoredObject v12;
    const uint8_t *v13;
    slice_u8 v14;
    record__StoredObject v15;
    const record__StoredObject *v16;
    const uint8_t *v17;
    slice_u8 v18;
    uint8_t *v20;
    slice_mut_u8 v21;
    uint8_t *v22;
    uint8_t *v23;
    slice_mut_u8 v24;
    v5 = v3.f0;
    v10 = v4.length;
    v6 = v5 + v10;
    v13 = v1.at;
    v14 = (slice_u8){ .at = v13, .length = v1.length };
    v12 = record__StoredObject__at(v14, v2);
    v15 = v12;
    v16 = &v15;
    v11 = record__StoredObject__used(v16);
    v7 = v11.f0;
    v8 = v2 + 96u;
    v17 = v1.at;
    v18 = (slice_u8){ .at = v17, .length = v1.length };
    v9 = record__data_end(v18, v2);
    v20 = v1.at;
    v21 = (slice_mut_u8){ .at = v20, .length = v1.length };
    v10 = core__int__usize__max(v7, v6);
    record__set_used(v21, v2, v10);
    v22 = v1.at + v8;
    v10 = v9 - v8;
    v23 = v22;
    v24 = (slice_mut_u8){ .at = v23, .length = v10 };
    primitives__put(v24, v5, v4);
    return;
}

/* content::field_allowed */
static bool content__field_allowed(reader__Field v1, uint8_t v2)
{
    bool result;
    bool v3;
    bool v4;
    usize v5;
    const uint8_t *v6;
    uint8_t v7;
    bool v8;
    slice_u8 v9;
    switch (v1.f0) {
    case 192u:
        v5 = v1.f1.length;
        v4 = v5 == 1u;
        if (v4) {
            v6 = v1.f1.at + 0u;
            v7 = *v6;
            v4 = expression__may_become(v2, v7);
        }
        v3 = v4;
        goto end1;
    case 211u:
        goto end2;
    default:
        v8 = v1.f0 < 208u;
        if (v8) {
            goto end3;
        }
        v8 = v1.f0 < 210u;
        if (v8) {
            goto end2;
        }
        goto end3;
        end3:;
        v3 = false;
        goto end1;
    }
    end2:;
    v9 = v1.f1;
    v3 = expression__well_formed(v9);
    end1:;
    result = v3;
    return result;
}

/* content::content_allowed */
static bool content__content_allowed(slice_u8 v1, uint8_t v2)
{
    bool result;
    reader__MetadataReader v3;
    uint8_t v4;
    core__result__Result__reader__Field__reader__Malformed v5;
    reader__Field v6;
    bool v7;
    bool v8;
    usize v9;
    const uint8_t *v10;
    uint8_t v11;
    const uint8_t *v12;
    uint8_t v13;
    usize v14;
    usize v15;
    usize v16;
    bool v17;
    reader__MetadataReader v18;
    core__option__Option__Result__reader__Field__reader__Malformed v19;
    reader__MetadataReader *v20;
    bool v21;
    uint8_t v22;
    reader__Field v23;
    bool v24;
    v9 = v1.length;
    v8 = v9 <= 2u;
    if (!v8) {
        v10 = v1.at + 0u;
        v11 = *v10;
        v8 = v11 != 32u;
        v7 = v8;
        if (!v7) {
            v12 = v1.at + 1u;
            v13 = *v12;
            v14 = (usize)v13;
            v15 = v1.length;
            v16 = v15 - 2u;
            v7 = v14 != v16;
            v17 = v7;
            if (!v17) {
                goto end2;
            }
        }
    }
    result = false;
    return result;
    goto end1;
    end2:;
    end1:;
    v18 = reader__MetadataReader__new(v1, 2u);
    v3 = v18;
    v4 = 0u;
    for (;;) {
        v20 = &v3;
        v19 = reader__MetadataReader__advance(v20);
        switch (v19.tag) {
        case 1u:
            v5 = v19.as.v1.f1;
            switch (v5.tag) {
            case 0u:
                v6 = v5.as.v0.f1;
                v22 = v6.f0;
                v21 = v4 < v22;
                if (v21) {
                    v23 = v6;
                    v21 = content__field_allowed(v23, v2);
                    v24 = v21;
                    if (v24) {
                        v4 = v6.f0;
                        goto end7;
                    }
                }
                result = false;
                return result;
                end7:;
                break;
            case 1u:
            default:
                result = false;
                return result;
            }
            break;
        case 0u:
        default:
            goto end5;
        }
    }
    end5:;
    result = true;
    return result;
}

/* content::slot_of */
static rules__Slot content__slot_of(uint8_t v1)
{
    rules__Slot result;
    rules__Slot v2;
    switch (v1) {
    case 208u:
        v2 = (rules__Slot){ .tag = 0u };
        break;
    case 209u:
        v2 = (rules__Slot){ .tag = 1u };
        break;
    default:
        v2 = (rules__Slot){ .tag = 2u };
        break;
    }
    result = v2;
    return result;
}

/* content::store_field */
static void content__store_field(slice_mut_u8 v1, usize v2, reader__Field v3)
{
    uint8_t v4;
    uint8_t *v6;
    slice_mut_u8 v7;
    const uint8_t *v8;
    uint8_t v9;
    uint8_t *v11;
    slice_mut_u8 v12;
    rules__Slot v13;
    slice_u8 v14;
    switch (v3.f0) {
    case 192u:
        v6 = v1.at;
        v7 = (slice_mut_u8){ .at = v6, .length = v1.length };
        v8 = v3.f1.at + 0u;
        v9 = *v8;
        change__set_lcso(v7, v2, v9);
        break;
    default:
        v4 = v3.f0;
        v11 = v1.at;
        v12 = (slice_mut_u8){ .at = v11, .length = v1.length };
        v13 = content__slot_of(v4);
        v14 = v3.f1;
        change__set_expression(v12, v2, v13, v14);
        break;
    }
    return;
}

/* content::store_content */
static void content__store_content(slice_mut_u8 v1, usize v2, slice_u8 v3)
{
    reader__MetadataReader v4;
    core__result__Result__reader__Field__reader__Malformed v5;
    reader__Field v6;
    reader__MetadataReader v7;
    core__option__Option__Result__reader__Field__reader__Malformed v8;
    reader__MetadataReader *v9;
    uint8_t *v11;
    slice_mut_u8 v12;
    reader__Field v13;
    v7 = reader__MetadataReader__new(v3, 2u);
    v4 = v7;
    for (;;) {
        v9 = &v4;
        v8 = reader__MetadataReader__advance(v9);
        switch (v8.tag) {
        case 1u:
            v5 = v8.as.v1.f1;
            switch (v5.tag) {
            case 0u:
                v6 = v5.as.v0.f1;
                break;
            case 1u:
            default:
                return;
            }
            v11 = v1.at;
            v12 = (slice_mut_u8){ .at = v11, .length = v1.length };
            v13 = v6;
            content__store_field(v12, v2, v13);
            break;
        case 0u:
        default:
            goto end1;
        }
    }
    end1:;
    return;
}

/* factory::fresh_session */
static rules__Session factory__fresh_session(void)
{
    rules__Session result;
    result = (rules__Session){ .f0 = false, .f1 = 1u, .f2 = 1u, .f3 = 0u };
    return result;
}

/* factory::put_record */
static void factory__put_record(slice_mut_u8 v1, rules__ObjectNumber v2, rules__Length v3)
{
    uint8_t *v5;
    slice_mut_u8 v6;
    uint8_t *v7;
    slice_mut_u8 v8;
    uint8_t *v9;
    slice_mut_u8 v10;
    const uint8_t *v11;
    const uint8_t *v12;
    slice_u8 v13;
    uint8_t *v14;
    slice_mut_u8 v15;
    const uint8_t *v16;
    const uint8_t *v17;
    slice_u8 v18;
    uint8_t *v19;
    slice_mut_u8 v20;
    const uint8_t *v21;
    const uint8_t *v22;
    slice_u8 v23;
    static const uint8_t lent1[3] = { 225u, 252u, 7u };
    static const uint8_t lent2[1] = { 0u };
    v5 = v1.at;
    v6 = (slice_mut_u8){ .at = v5, .length = v1.length };
    primitives__clear(v6);
    v7 = v1.at;
    v8 = (slice_mut_u8){ .at = v7, .length = v1.length };
    record__put_fixed(v8, v2, v3);
    v9 = v1.at;
    v10 = (slice_mut_u8){ .at = v9, .length = v1.length };
    v11 = lent1;
    v12 = v11;
    v13 = (slice_u8){ .at = v12, .length = 3u };
    record__put_slot(v10, 12u, v13);
    v14 = v1.at;
    v15 = (slice_mut_u8){ .at = v14, .length = v1.length };
    v16 = lent2;
    v17 = v16;
    v18 = (slice_u8){ .at = v17, .length = 1u };
    record__put_slot(v15, 40u, v18);
    v19 = v1.at;
    v20 = (slice_mut_u8){ .at = v19, .length = v1.length };
    v21 = lent2;
    v22 = v21;
    v23 = (slice_u8){ .at = v22, .length = 1u };
    record__put_slot(v20, 68u, v23);
    return;
}

/* factory::fill */
static void factory__fill(slice_mut_u8 v1)
{
    usize v2;
    const factory__Entry *v3;
    usize v4;
    rules__ObjectNumber v5;
    rules__Length v6;
    usize v7;
    const factory__Entry *v8;
    bool v9;
    const factory__Entry *v10;
    usize v11;
    const factory__Entry *v12;
    const factory__Entry *v13;
    uint8_t *v15;
    uint8_t *v16;
    slice_mut_u8 v17;
    static const factory__Entry lent1[14] = { { .f0 = { .f0 = 61904u }, .f1 = { .f0 = 140u } }, { .f0 = { .f0 = 61905u }, .f1 = { .f0 = 140u } }, { .f0 = { .f0 = 61906u }, .f1 = { .f0 = 140u } }, { .f0 = { .f0 = 61907u }, .f1 = { .f0 = 140u } }, { .f0 = { .f0 = 61908u }, .f1 = { .f0 = 140u } }, { .f0 = { .f0 = 61909u }, .f1 = { .f0 = 140u } }, { .f0 = { .f0 = 61910u }, .f1 = { .f0 = 140u } }, { .f0 = { .f0 = 61911u }, .f1 = { .f0 = 140u } }, { .f0 = { .f0 = 61912u }, .f1 = { .f0 = 140u } }, { .f0 = { .f0 = 61913u }, .f1 = { .f0 = 140u } }, { .f0 = { .f0 = 61914u }, .f1 = { .f0 = 140u } }, { .f0 = { .f0 = 61915u }, .f1 = { .f0 = 140u } }, { .f0 = { .f0 = 61920u }, .f1 = { .f0 = 1500u } }, { .f0 = { .f0 = 61921u }, .f1 = { .f0 = 1500u } } };
    v2 = 0u;
    v8 = lent1;
    v3 = v8;
    v4 = 0u;
    for (;;) {
        v9 = v4 < 14u;
        if (!v9) {
            break;
        }
        v11 = v4 * 16u;
        v12 = v3;
        v13 = v12 + v11 / 16u;
        v10 = v13;
        v5 = v10->f0;
        v6 = v10->f1;
        v11 = v2 + 96u;
        v7 = v11 + v6.f0;
        v15 = v1.at + v2;
        v11 = v7 - v2;
        v16 = v15;
        v17 = (slice_mut_u8){ .at = v16, .length = v11 };
        factory__put_record(v17, v5, v6);
        v2 = v7;
        v4 = v4 + 1u;
    }
    return;
}

/* factory::make_factory_store */
static core__result__Result__unit__factory__WrongSize factory__make_factory_store(slice_mut_u8 v1)
{
    core__result__Result__unit__factory__WrongSize result;
    usize v2;
    bool v3;
    uint8_t *v6;
    slice_mut_u8 v7;
    v2 = v1.length;
    v3 = v2 != 6024u;
    if (v3) {
        result = (core__result__Result__unit__factory__WrongSize){ .tag = 1u };
        return result;
    }
    v6 = v1.at;
    v7 = (slice_mut_u8){ .at = v6, .length = v1.length };
    factory__fill(v7);
    result = (core__result__Result__unit__factory__WrongSize){ .tag = 0u };
    return result;
}

/* fares::acknowledge */
static void fares__acknowledge(slice_mut_u8 v1, usize v2, uint32_t v3)
{
    rules__Length v4;
    usize v5;
    usize v6;
    rules__Length v7;
    record__StoredObject v8;
    const uint8_t *v9;
    slice_u8 v10;
    record__StoredObject v11;
    const record__StoredObject *v12;
    const uint8_t *v13;
    slice_u8 v14;
    uint8_t *v15;
    usize v16;
    uint8_t *v17;
    slice_mut_u8 v18;
    uint8_t *v20;
    slice_mut_u8 v21;
    v9 = v1.at;
    v10 = (slice_u8){ .at = v9, .length = v1.length };
    v8 = record__StoredObject__at(v10, v2);
    v11 = v8;
    v12 = &v11;
    v4 = record__StoredObject__used(v12);
    v5 = v2 + 96u;
    v13 = v1.at;
    v14 = (slice_u8){ .at = v13, .length = v1.length };
    v6 = record__data_end(v14, v2);
    v15 = v1.at + v5;
    v16 = v6 - v5;
    v17 = v15;
    v18 = (slice_mut_u8){ .at = v17, .length = v16 };
    v7 = queue__acknowledge(v18, v4, v3);
    v20 = v1.at;
    v21 = (slice_mut_u8){ .at = v20, .length = v1.length };
    record__set_used(v21, v2, v7.f0);
    return;
}

/* fares::append */
static void fares__append(slice_mut_u8 v1, usize v2, slice_u8 v3)
{
    rules__Length v4;
    usize v5;
    usize v6;
    rules__Length v7;
    record__StoredObject v8;
    const uint8_t *v9;
    slice_u8 v10;
    record__StoredObject v11;
    const record__StoredObject *v12;
    const uint8_t *v13;
    slice_u8 v14;
    uint8_t *v15;
    usize v16;
    uint8_t *v17;
    slice_mut_u8 v18;
    uint8_t *v20;
    slice_mut_u8 v21;
    v9 = v1.at;
    v10 = (slice_u8){ .at = v9, .length = v1.length };
    v8 = record__StoredObject__at(v10, v2);
    v11 = v8;
    v12 = &v11;
    v4 = record__StoredObject__used(v12);
    v5 = v2 + 96u;
    v13 = v1.at;
    v14 = (slice_u8){ .at = v13, .length = v1.length };
    v6 = record__data_end(v14, v2);
    v15 = v1.at + v5;
    v16 = v6 - v5;
    v17 = v15;
    v18 = (slice_mut_u8){ .at = v17, .length = v16 };
    v7 = queue__append(v18, v4, v3);
    v20 = v1.at;
    v21 = (slice_mut_u8){ .at = v20, .length = v1.length };
    record__set_used(v21, v2, v7.f0);
    return;
}

/* fares::judge_acknowledge */
static core__result__Result__unit__rules__Refusal fares__judge_acknowledge(const record__StoredObject *v1, uint32_t v2)
{
    core__result__Result__unit__rules__Refusal result;
    core__result__ErrResidual__rules__Refusal v4;
    bool v5;
    core__ops__ControlFlow__ErrResidual__rules__Refusal__unit v6;
    core__result__Result__unit__rules__Refusal v7;
    bool v8;
    bool v9;
    rules__Refusal v10;
    slice_u8 v11;
    v8 = record__StoredObject__is_queue(v1);
    v9 = !v8;
    v10 = (rules__Refusal){ .tag = 1u };
    v7 = rules__refuse_if(v9, v10);
    v6 = core__result__ResultTry__branch__unit__rules__Refusal(v7);
    switch (v6.tag) {
    case 0u:
        break;
    case 1u:
    default:
        v4 = v6.as.v1.f1;
        result = core__result__ResultFromResidualErrResidual__from_residual__unit__rules__Refusal__rules__Refusal(v4);
        return result;
    }
    v11 = record__StoredObject__content(v1);
    v5 = queue__is_present(v11, v2);
    v8 = !v5;
    v10 = (rules__Refusal){ .tag = 3u };
    result = rules__refuse_if(v8, v10);
    return result;
}

/* fares::judge_append */
static core__result__Result__unit__rules__Refusal fares__judge_append(const record__StoredObject *v1, slice_u8 v2)
{
    core__result__Result__unit__rules__Refusal result;
    rules__Length v3;
    bool v4;
    core__result__ErrResidual__rules__Refusal v6;
    core__result__ErrResidual__rules__Refusal v8;
    uint32_t v9;
    usize v10;
    usize v11;
    rules__Length v12;
    rules__Offset v13;
    rules__Length v14;
    core__ops__ControlFlow__ErrResidual__rules__Refusal__unit v15;
    core__result__Result__unit__rules__Refusal v16;
    bool v17;
    bool v18;
    rules__Refusal v19;
    core__ops__ControlFlow__ErrResidual__rules__Refusal__unit v20;
    slice_u8 v21;
    v10 = v2.length;
    v11 = (usize)8u + v10;
    v3 = (rules__Length){ .f0 = v11 };
    v12 = record__StoredObject__used(v1);
    v13 = (rules__Offset){ .f0 = v12.f0 };
    v14 = record__StoredObject__maximum(v1);
    v4 = bounds__fits(v13, v3, v14);
    v17 = record__StoredObject__is_queue(v1);
    v18 = !v17;
    v19 = (rules__Refusal){ .tag = 1u };
    v16 = rules__refuse_if(v18, v19);
    v15 = core__result__ResultTry__branch__unit__rules__Refusal(v16);
    switch (v15.tag) {
    case 0u:
        break;
    case 1u:
    default:
        v6 = v15.as.v1.f1;
        result = core__result__ResultFromResidualErrResidual__from_residual__unit__rules__Refusal__rules__Refusal(v6);
        return result;
    }
    v17 = !v4;
    v19 = (rules__Refusal){ .tag = 6u };
    v16 = rules__refuse_if(v17, v19);
    v20 = core__result__ResultTry__branch__unit__rules__Refusal(v16);
    switch (v20.tag) {
    case 0u:
        break;
    case 1u:
    default:
        v8 = v20.as.v1.f1;
        result = core__result__ResultFromResidualErrResidual__from_residual__unit__rules__Refusal__rules__Refusal(v8);
        return result;
    }
    v21 = record__StoredObject__content(v1);
    v9 = queue__next_number(v21);
    v18 = v9 == 4294967295u;
    v19 = (rules__Refusal){ .tag = 9u };
    result = rules__refuse_if(v18, v19);
    return result;
}

/* response::done */
static void response__done(slice_mut_u8 v1)
{
    uint8_t *v3;
    slice_mut_u8 v4;
    v3 = v1.at;
    v4 = (slice_mut_u8){ .at = v3, .length = v1.length };
    primitives__put_zeros(v4, 0u, 4u);
    return;
}

/* response::head */
static void response__head(slice_mut_u8 v1, rules__Length v2)
{
    uint8_t v3;
    uint8_t v4;
    array_u8_2 v5;
    uint16_t v6;
    array_u8_2 v7;
    uint8_t *v8;
    uint8_t *v9;
    uint8_t *v10;
    uint8_t *v11;
    uint8_t *v13;
    slice_mut_u8 v14;
    array_u8_4 v15;
    const uint8_t *v16;
    slice_u8 v17;
    v6 = (uint16_t)v2.f0;
    v5 = core__int__u16__to_be_bytes(v6);
    v7 = v5;
    v8 = v7.at;
    v9 = v8 + 0u;
    v10 = v7.at;
    v11 = v10 + 1u;
    v3 = *v9;
    v4 = *v11;
    v13 = v1.at;
    v14 = (slice_mut_u8){ .at = v13, .length = v1.length };
    v15 = (array_u8_4){ { 0u, 0u, v3, v4 } };
    v16 = v15.at;
    v17 = (slice_u8){ .at = v16, .length = 4u };
    primitives__put(v14, 0u, v17);
    return;
}

/* response::answer */
static void response__answer(slice_mut_u8 v1, slice_u8 v2)
{
    uint8_t *v4;
    slice_mut_u8 v5;
    usize v6;
    rules__Length v7;
    uint8_t *v8;
    slice_mut_u8 v9;
    v4 = v1.at;
    v5 = (slice_mut_u8){ .at = v4, .length = v1.length };
    v6 = v2.length;
    v7 = (rules__Length){ .f0 = v6 };
    response__head(v5, v7);
    v8 = v1.at;
    v9 = (slice_mut_u8){ .at = v8, .length = v1.length };
    primitives__put(v9, 4u, v2);
    return;
}

/* response::refuse */
static void response__refuse(slice_mut_u8 v1)
{
    uint8_t *v3;
    slice_mut_u8 v4;
    const uint8_t *v5;
    const uint8_t *v6;
    slice_u8 v7;
    static const uint8_t lent1[4] = { 255u, 0u, 0u, 0u };
    v3 = v1.at;
    v4 = (slice_mut_u8){ .at = v3, .length = v1.length };
    v5 = lent1;
    v6 = v5;
    v7 = (slice_u8){ .at = v6, .length = 4u };
    primitives__put(v4, 0u, v7);
    return;
}

/* answer::expression_length */
static usize answer__expression_length(const record__StoredObject *v1, rules__Slot v2)
{
    usize result;
    slice_u8 v3;
    v3 = record__StoredObject__expression(v1, v2);
    result = v3.length;
    return result;
}

/* answer::answer_size */
static usize answer__answer_size(const record__StoredObject *v1)
{
    usize result;
    usize v2;
    usize v3;
    usize v4;
    rules__Slot v5;
    usize v6;
    usize v7;
    v5 = (rules__Slot){ .tag = 0u };
    v2 = answer__expression_length(v1, v5);
    v5 = (rules__Slot){ .tag = 1u };
    v3 = answer__expression_length(v1, v5);
    v5 = (rules__Slot){ .tag = 2u };
    v4 = answer__expression_length(v1, v5);
    v6 = (usize)19u + v2;
    v7 = v6 + v3;
    result = v7 + v4;
    return result;
}

/* answer::answer_length */
static rules__Length answer__answer_length(const record__StoredObject *v1)
{
    rules__Length result;
    usize v2;
    v2 = answer__answer_size(v1);
    result = (rules__Length){ .f0 = v2 };
    return result;
}

/* answer::put_field */
static usize answer__put_field(slice_mut_u8 v1, usize v2, uint8_t v3, slice_u8 v4)
{
    usize result;
    usize v5;
    uint8_t *v7;
    slice_mut_u8 v8;
    array_u8_2 v9;
    usize v10;
    uint8_t v11;
    const uint8_t *v12;
    slice_u8 v13;
    uint8_t *v14;
    slice_mut_u8 v15;
    v7 = v1.at;
    v8 = (slice_mut_u8){ .at = v7, .length = v1.length };
    v10 = v4.length;
    v11 = (uint8_t)v10;
    v9 = (array_u8_2){ { v3, v11 } };
    v12 = v9.at;
    v13 = (slice_u8){ .at = v12, .length = 2u };
    primitives__put(v8, v2, v13);
    v5 = v2 + 2u;
    v14 = v1.at;
    v15 = (slice_mut_u8){ .at = v14, .length = v1.length };
    primitives__put(v15, v5, v4);
    v10 = v4.length;
    result = v5 + v10;
    return result;
}

/* answer::put_sizes */
static void answer__put_sizes(const record__StoredObject *v1, usize v2, slice_mut_u8 v3)
{
    array_u8_2 v4;
    array_u8_2 v5;
    array_u8_13 v6;
    array_u8_2 v7;
    rules__Length v8;
    uint16_t v9;
    usize v10;
    uint8_t v11;
    uint8_t v12;
    uint8_t *v13;
    uint8_t *v14;
    uint8_t v15;
    uint8_t *v16;
    uint8_t *v17;
    uint8_t v18;
    uint8_t *v19;
    uint8_t *v20;
    uint8_t v21;
    uint8_t *v22;
    uint8_t *v23;
    uint8_t v24;
    uint8_t *v26;
    slice_mut_u8 v27;
    const uint8_t *v28;
    slice_u8 v29;
    v8 = record__StoredObject__maximum(v1);
    v9 = (uint16_t)v8.f0;
    v7 = core__int__u16__to_be_bytes(v9);
    v4 = v7;
    v8 = record__StoredObject__used(v1);
    v9 = (uint16_t)v8.f0;
    v7 = core__int__u16__to_be_bytes(v9);
    v5 = v7;
    v10 = v2 - 2u;
    v11 = (uint8_t)v10;
    v12 = record__StoredObject__lcso(v1);
    v13 = v4.at;
    v14 = v13 + 0u;
    v15 = *v14;
    v16 = v4.at;
    v17 = v16 + 1u;
    v18 = *v17;
    v19 = v5.at;
    v20 = v19 + 0u;
    v21 = *v20;
    v22 = v5.at;
    v23 = v22 + 1u;
    v24 = *v23;
    v6 = (array_u8_13){ { 32u, v11, 192u, 1u, v12, 196u, 2u, v15, v18, 197u, 2u, v21, v24 } };
    v26 = v3.at;
    v27 = (slice_mut_u8){ .at = v26, .length = v3.length };
    v28 = v6.at;
    v29 = (slice_u8){ .at = v28, .length = 13u };
    primitives__put(v27, 4u, v29);
    return;
}

/* answer::tag_of */
static uint8_t answer__tag_of(rules__Slot v1)
{
    uint8_t result;
    uint8_t v2;
    switch (v1.tag) {
    case 0u:
        v2 = 208u;
        break;
    case 1u:
        v2 = 209u;
        break;
    case 2u:
    default:
        v2 = 211u;
        break;
    }
    result = v2;
    return result;
}

/* answer::put_expression */
static usize answer__put_expression(const record__StoredObject *v1, rules__Slot v2, slice_mut_u8 v3, usize v4)
{
    usize result;
    uint8_t *v5;
    slice_mut_u8 v6;
    uint8_t v7;
    slice_u8 v8;
    v5 = v3.at;
    v6 = (slice_mut_u8){ .at = v5, .length = v3.length };
    v7 = answer__tag_of(v2);
    v8 = record__StoredObject__expression(v1, v2);
    result = answer__put_field(v6, v4, v7, v8);
    return result;
}

/* answer::write_answer */
static void answer__write_answer(const record__StoredObject *v1, slice_mut_u8 v2)
{
    usize v3;
    usize v4;
    usize v5;
    uint8_t *v7;
    slice_mut_u8 v8;
    rules__Length v9;
    uint8_t *v10;
    slice_mut_u8 v11;
    rules__Slot v12;
    uint8_t *v13;
    slice_mut_u8 v14;
    uint8_t *v15;
    slice_mut_u8 v16;
    uint8_t *v18;
    slice_mut_u8 v19;
    v3 = answer__answer_size(v1);
    v7 = v2.at;
    v8 = (slice_mut_u8){ .at = v7, .length = v2.length };
    v9 = (rules__Length){ .f0 = v3 };
    response__head(v8, v9);
    v10 = v2.at;
    v11 = (slice_mut_u8){ .at = v10, .length = v2.length };
    answer__put_sizes(v1, v3, v11);
    v12 = (rules__Slot){ .tag = 0u };
    v13 = v2.at;
    v14 = (slice_mut_u8){ .at = v13, .length = v2.length };
    v4 = answer__put_expression(v1, v12, v14, 17u);
    v12 = (rules__Slot){ .tag = 1u };
    v15 = v2.at;
    v16 = (slice_mut_u8){ .at = v15, .length = v2.length };
    v5 = answer__put_expression(v1, v12, v16, v4);
    v12 = (rules__Slot){ .tag = 2u };
    v18 = v2.at;
    v19 = (slice_mut_u8){ .at = v18, .length = v2.length };
    answer__put_expression(v1, v12, v19, v5);
    return;
}

/* session::with_error */
static rules__Session session__with_error(uint8_t v1, rules__Session v2)
{
    rules__Session result;
    bool v3;
    uint8_t v4;
    uint8_t v5;
    v3 = v2.f0;
    v4 = v2.f1;
    v5 = v2.f2;
    result = (rules__Session){ .f0 = v3, .f1 = v4, .f2 = v5, .f3 = v1 };
    return result;
}

/* session::raised */
static rules__Session session__raised(uint8_t v1, rules__Session v2)
{
    rules__Session result;
    uint8_t v3;
    v3 = core__int__u8__max(v2.f3, v1);
    result = session__with_error(v3, v2);
    return result;
}

/* session::with_opened */
static rules__Session session__with_opened(bool v1, rules__Session v2)
{
    rules__Session result;
    uint8_t v3;
    uint8_t v4;
    uint8_t v5;
    v3 = v2.f1;
    v4 = v2.f2;
    v5 = v2.f3;
    result = (rules__Session){ .f0 = v1, .f1 = v3, .f2 = v4, .f3 = v5 };
    return result;
}

/* session::with_state */
static rules__Session session__with_state(rules__ObjectNumber v1, uint8_t v2, rules__Session v3)
{
    rules__Session result;
    rules__Session v4;
    bool v5;
    uint8_t v6;
    uint8_t v7;
    bool v8;
    uint8_t v9;
    uint8_t v10;
    switch (v1.f0) {
    case 57536u:
        v5 = v3.f0;
        v6 = v3.f2;
        v7 = v3.f3;
        v4 = (rules__Session){ .f0 = v5, .f1 = v2, .f2 = v6, .f3 = v7 };
        break;
    case 61888u:
        v8 = v3.f0;
        v9 = v3.f1;
        v10 = v3.f3;
        v4 = (rules__Session){ .f0 = v8, .f1 = v9, .f2 = v2, .f3 = v10 };
        break;
    default:
        v4 = v3;
        break;
    }
    result = v4;
    return result;
}

/* command::action_sizes */
static rules__Sizes command__action_sizes(rules__Action v1)
{
    rules__Sizes result;
    rules__Sizes v2;
    switch (v1.tag) {
    case 0u:
        v2 = (rules__Sizes){ .f0 = 6u, .f1 = 6u };
        break;
    case 1u:
        v2 = (rules__Sizes){ .f0 = 2u, .f1 = 2u };
        break;
    case 2u:
        v2 = (rules__Sizes){ .f0 = 5u, .f1 = 65535u };
        break;
    case 3u:
        v2 = (rules__Sizes){ .f0 = 5u, .f1 = 65535u };
        break;
    case 4u:
        v2 = (rules__Sizes){ .f0 = 4u, .f1 = 65535u };
        break;
    case 5u:
        v2 = (rules__Sizes){ .f0 = 5u, .f1 = 5u };
        break;
    case 6u:
        v2 = (rules__Sizes){ .f0 = 3u, .f1 = 202u };
        break;
    case 7u:
    default:
        v2 = (rules__Sizes){ .f0 = 6u, .f1 = 6u };
        break;
    }
    result = v2;
    return result;
}

/* command::asked_length */
static rules__Length command__asked_length(slice_u8 v1)
{
    rules__Length result;
    uint16_t v2;
    usize v3;
    v2 = primitives__big_endian_at(v1, 8u);
    v3 = (usize)v2;
    result = (rules__Length){ .f0 = v3 };
    return result;
}

/* command::asks_flush */
static bool command__asks_flush(slice_u8 v1)
{
    bool result;
    bool v2;
    bool v3;
    const uint8_t *v4;
    uint8_t v5;
    v3 = core__slice__slice_T__is_empty__u8(v1);
    v2 = !v3;
    if (v2) {
        v4 = v1.at + 0u;
        v5 = *v4;
        v2 = 128u <= v5;
    }
    result = v2;
    return result;
}

/* command::cmd */
static uint8_t command__cmd(slice_u8 v1)
{
    uint8_t result;
    const uint8_t *v2;
    uint8_t v3;
    v2 = v1.at + 0u;
    v3 = *v2;
    result = (uint8_t)((uint32_t)v3 % (uint32_t)128u);
    return result;
}

/* command::flushed */
static rules__Session command__flushed(slice_u8 v1, rules__Session v2)
{
    rules__Session result;
    bool v3;
    rules__Session v4;
    v3 = command__asks_flush(v1);
    if (v3) {
        v4 = session__with_error(0u, v2);
    } else {
        v4 = v2;
    }
    result = v4;
    return result;
}

/* command::ill_sized */
static bool command__ill_sized(slice_u8 v1)
{
    bool result;
    usize v2;
    bool v3;
    bool v4;
    uint16_t v5;
    usize v6;
    usize v7;
    v2 = v1.length;
    v4 = v2 < 4u;
    if (!v4) {
        v4 = 1557u < v2;
    }
    v3 = v4;
    if (!v3) {
        v5 = primitives__big_endian_at(v1, 2u);
        v6 = (usize)v5;
        v7 = v2 - 4u;
        v3 = v6 != v7;
    }
    result = v3;
    return result;
}

/* command::known_cmd */
static bool command__known_cmd(uint8_t v1)
{
    bool result;
    bool v2;
    bool v3;
    v3 = v1 < 1u;
    if (v3) {
        goto end2;
    }
    v3 = v1 < 3u;
    if (v3) {
        goto end3;
    }
    v3 = v1 < 112u;
    if (v3) {
        goto end2;
    }
    v3 = v1 < 114u;
    if (v3) {
        goto end3;
    }
    goto end2;
    end3:;
    v2 = true;
    goto end1;
    end2:;
    v2 = false;
    end1:;
    result = v2;
    return result;
}

/* command::object_number */
static rules__ObjectNumber command__object_number(slice_u8 v1)
{
    rules__ObjectNumber result;
    uint16_t v2;
    v2 = primitives__big_endian_at(v1, 4u);
    result = (rules__ObjectNumber){ .f0 = v2 };
    return result;
}

/* command::offset */
static rules__Offset command__offset(slice_u8 v1)
{
    rules__Offset result;
    uint16_t v2;
    usize v3;
    v2 = primitives__big_endian_at(v1, 6u);
    v3 = (usize)v2;
    result = (rules__Offset){ .f0 = v3 };
    return result;
}

/* command::row_of */
static rules__Row command__row_of(uint8_t v1, uint8_t v2)
{
    rules__Row result;
    uint8_t v3;
    uint8_t v4;
    rules__Row v5;
    rules__Action v6;
    rules__Action v7;
    rules__Action v8;
    rules__Action v9;
    rules__Action v10;
    rules__Action v11;
    rules__Action v12;
    rules__Action v13;
    v3 = v1;
    v4 = v2;
    switch (v3) {
    case 1u:
        switch (v4) {
        case 0u:
            v6 = (rules__Action){ .tag = 0u };
            v5 = (rules__Row){ .tag = 0u, .as.v0.f1 = v6 };
            goto end1;
        case 1u:
            v7 = (rules__Action){ .tag = 1u };
            v5 = (rules__Row){ .tag = 0u, .as.v0.f1 = v7 };
            goto end1;
        default:
            goto end2;
        }
        break;
    case 2u:
        switch (v4) {
        case 0u:
            v8 = (rules__Action){ .tag = 2u };
            v5 = (rules__Row){ .tag = 0u, .as.v0.f1 = v8 };
            goto end1;
        case 64u:
            v9 = (rules__Action){ .tag = 3u };
            v5 = (rules__Row){ .tag = 0u, .as.v0.f1 = v9 };
            goto end1;
        case 1u:
            v10 = (rules__Action){ .tag = 4u };
            v5 = (rules__Row){ .tag = 0u, .as.v0.f1 = v10 };
            goto end1;
        case 2u:
            v11 = (rules__Action){ .tag = 5u };
            v5 = (rules__Row){ .tag = 0u, .as.v0.f1 = v11 };
            goto end1;
        case 4u:
            v12 = (rules__Action){ .tag = 6u };
            v5 = (rules__Row){ .tag = 0u, .as.v0.f1 = v12 };
            goto end1;
        case 5u:
            v13 = (rules__Action){ .tag = 7u };
            v5 = (rules__Row){ .tag = 0u, .as.v0.f1 = v13 };
            goto end1;
        default:
            goto end2;
        }
        break;
    case 112u:
        switch (v4) {
        case 0u:
            v5 = (rules__Row){ .tag = 1u };
            goto end1;
        default:
            goto end2;
        }
        break;
    case 113u:
        switch (v4) {
        case 0u:
            v5 = (rules__Row){ .tag = 2u };
            goto end1;
        default:
            goto end2;
        }
        break;
    default:
        goto end2;
    }
    end2:;
    v5 = (rules__Row){ .tag = 3u };
    end1:;
    result = v5;
    return result;
}

/* command::row_of_command */
static rules__Row command__row_of_command(slice_u8 v1)
{
    rules__Row result;
    uint8_t v2;
    const uint8_t *v3;
    uint8_t v4;
    v2 = command__cmd(v1);
    v3 = v1.at + 1u;
    v4 = *v3;
    result = command__row_of(v2, v4);
    return result;
}

/* command::row_sizes */
static rules__Sizes command__row_sizes(rules__Row v1)
{
    rules__Sizes result;
    rules__Action v2;
    rules__Sizes v3;
    switch (v1.tag) {
    case 0u:
        v2 = v1.as.v0.f1;
        v3 = command__action_sizes(v2);
        break;
    case 1u:
        v3 = (rules__Sizes){ .f0 = 16u, .f1 = 16u };
        break;
    case 2u:
        v3 = (rules__Sizes){ .f0 = 0u, .f1 = 0u };
        break;
    case 3u:
    default:
        v3 = (rules__Sizes){ .f0 = 1u, .f1 = 0u };
        break;
    }
    result = v3;
    return result;
}

/* command::sent_body */
static slice_u8 command__sent_body(slice_u8 v1)
{
    slice_u8 result;
    const uint8_t *v2;
    usize v3;
    const uint8_t *v4;
    v2 = v1.at + 6u;
    v3 = v1.length - 6u;
    v4 = v2;
    result = (slice_u8){ .at = v4, .length = v3 };
    return result;
}

/* command::sent_data */
static slice_u8 command__sent_data(slice_u8 v1)
{
    slice_u8 result;
    const uint8_t *v2;
    usize v3;
    const uint8_t *v4;
    v2 = v1.at + 8u;
    v3 = v1.length - 8u;
    v4 = v2;
    result = (slice_u8){ .at = v4, .length = v3 };
    return result;
}

/* command::sent_metadata */
static slice_u8 command__sent_metadata(slice_u8 v1)
{
    slice_u8 result;
    const uint8_t *v2;
    usize v3;
    const uint8_t *v4;
    v2 = v1.at + 6u;
    v3 = v1.length - 6u;
    v4 = v2;
    result = (slice_u8){ .at = v4, .length = v3 };
    return result;
}

/* command::sent_number */
static uint32_t command__sent_number(slice_u8 v1)
{
    uint32_t result;
    result = primitives__big_endian_4_at(v1, 6u);
    return result;
}

/* command::size_right */
static bool command__size_right(rules__Sizes v1, usize v2)
{
    bool result;
    bool v3;
    v3 = v1.f0 <= v2;
    if (v3) {
        v3 = v2 <= v1.f1;
    }
    result = v3;
    return result;
}

/* command::step_byte */
static uint8_t command__step_byte(slice_u8 v1)
{
    uint8_t result;
    const uint8_t *v2;
    uint8_t v3;
    v2 = v1.at + 8u;
    v3 = *v2;
    result = v3;
    return result;
}

/* command::unknown_cmd */
static bool command__unknown_cmd(slice_u8 v1)
{
    bool result;
    bool v2;
    uint8_t v3;
    v3 = command__cmd(v1);
    v2 = command__known_cmd(v3);
    result = !v2;
    return result;
}

/* command::unknown_param */
static bool command__unknown_param(slice_u8 v1)
{
    bool result;
    rules__Row v2;
    bool v3;
    v2 = command__row_of_command(v1);
    switch (v2.tag) {
    case 3u:
        v3 = true;
        break;
    case 0u:
    case 1u:
    case 2u:
    default:
        v3 = false;
        break;
    }
    result = v3;
    return result;
}

/* command::unsound */
static bool command__unsound(bool v1, rules__Session v2)
{
    bool result;
    bool v3;
    bool v4;
    bool v5;
    bool v6;
    v4 = !v1;
    if (!v4) {
        v5 = expression__is_state(v2.f1);
        v4 = !v5;
    }
    v3 = v4;
    if (!v3) {
        v6 = expression__is_state(v2.f2);
        v3 = !v6;
    }
    result = v3;
    return result;
}

/* command::unusable */
static bool command__unusable(slice_u8 v1, rules__Session v2)
{
    bool result;
    bool v3;
    bool v4;
    uint8_t v5;
    v3 = v2.f2 == 15u;
    if (!v3) {
        v4 = !v2.f0;
        if (v4) {
            v5 = command__cmd(v1);
            v4 = v5 != 112u;
        }
        v3 = v4;
    }
    result = v3;
    return result;
}

/* command::wrong_content */
static bool command__wrong_content(slice_u8 v1)
{
    bool result;
    rules__Row v2;
    bool v3;
    const uint8_t *v4;
    usize v5;
    const uint8_t *v6;
    slice_u8 v7;
    slice_u8 v8;
    const slice_u8 *v9;
    slice_u8 v10;
    const uint8_t *v11;
    slice_u8 v12;
    const slice_u8 *v13;
    static const uint8_t lent1[16] = { 210u, 118u, 0u, 0u, 4u, 71u, 101u, 110u, 65u, 117u, 116u, 104u, 65u, 112u, 112u, 108u };
    v2 = command__row_of_command(v1);
    switch (v2.tag) {
    case 1u:
        v4 = v1.at + 4u;
        v5 = v1.length - 4u;
        v6 = v4;
        v7 = (slice_u8){ .at = v6, .length = v5 };
        v8 = v7;
        v9 = &v8;
        v11 = lent1;
        v10 = core__array__array_N_T__as_slice__u8__16(v11);
        v12 = v10;
        v13 = &v12;
        v3 = core__cmp__PartialEq__ne__slice_u8(v9, v13);
        break;
    case 0u:
    case 2u:
    case 3u:
    default:
        v3 = false;
        break;
    }
    result = v3;
    return result;
}

/* command::wrong_length */
static bool command__wrong_length(slice_u8 v1)
{
    bool result;
    rules__Sizes v2;
    rules__Row v3;
    bool v4;
    uint16_t v5;
    usize v6;
    v3 = command__row_of_command(v1);
    v2 = command__row_sizes(v3);
    v5 = primitives__big_endian_at(v1, 2u);
    v6 = (usize)v5;
    v4 = command__size_right(v2, v6);
    result = !v4;
    return result;
}

/* command::early */
static core__result__Result__unit__rules__Refusal command__early(bool v1, slice_u8 v2, rules__Session v3)
{
    core__result__Result__unit__rules__Refusal result;
    core__result__ErrResidual__rules__Refusal v5;
    core__result__ErrResidual__rules__Refusal v7;
    core__result__ErrResidual__rules__Refusal v9;
    core__result__ErrResidual__rules__Refusal v11;
    core__result__ErrResidual__rules__Refusal v13;
    core__result__ErrResidual__rules__Refusal v15;
    core__ops__ControlFlow__ErrResidual__rules__Refusal__unit v16;
    core__result__Result__unit__rules__Refusal v17;
    bool v18;
    rules__Refusal v19;
    core__ops__ControlFlow__ErrResidual__rules__Refusal__unit v20;
    core__ops__ControlFlow__ErrResidual__rules__Refusal__unit v21;
    core__ops__ControlFlow__ErrResidual__rules__Refusal__unit v22;
    core__ops__ControlFlow__ErrResidual__rules__Refusal__unit v23;
    core__ops__ControlFlow__ErrResidual__rules__Refusal__unit v24;
    v18 = command__unsound(v1, v3);
    v19 = (rules__Refusal){ .tag = 4u };
    v17 = rules__refuse_if(v18, v19);
    v16 = core__result__ResultTry__branch__unit__rules__Refusal(v17);
    switch (v16.tag) {
    case 0u:
        break;
    case 1u:
    default:
        v5 = v16.as.v1.f1;
        result = core__result__ResultFromResidualErrResidual__from_residual__unit__rules__Refusal__rules__Refusal(v5);
        return result;
    }
    v18 = command__ill_sized(v2);
    v19 = (rules__Refusal){ .tag = 2u };
    v17 = rules__refuse_if(v18, v19);
    v20 = core__result__ResultTry__branch__unit__rules__Refusal(v17);
    switch (v20.tag) {
    case 0u:
        break;
    case 1u:
    default:
        v7 = v20.as.v1.f1;
        result = core__result__ResultFromResidualErrResidual__from_residual__unit__rules__Refusal__rules__Refusal(v7);
        return result;
    }
    v18 = command__unknown_cmd(v2);
    v19 = (rules__Refusal){ .tag = 7u };
    v17 = rules__refuse_if(v18, v19);
    v21 = core__result__ResultTry__branch__unit__rules__Refusal(v17);
    switch (v21.tag) {
    case 0u:
        break;
    case 1u:
    default:
        v9 = v21.as.v1.f1;
        result = core__result__ResultFromResidualErrResidual__from_residual__unit__rules__Refusal__rules__Refusal(v9);
        return result;
    }
    v18 = command__unusable(v2, v3);
    v19 = (rules__Refusal){ .tag = 8u };
    v17 = rules__refuse_if(v18, v19);
    v22 = core__result__ResultTry__branch__unit__rules__Refusal(v17);
    switch (v22.tag) {
    case 0u:
        break;
    case 1u:
    default:
        v11 = v22.as.v1.f1;
        result = core__result__ResultFromResidualErrResidual__from_residual__unit__rules__Refusal__rules__Refusal(v11);
        return result;
    }
    v18 = command__unknown_param(v2);
    v19 = (rules__Refusal){ .tag = 1u };
    v17 = rules__refuse_if(v18, v19);
    v23 = core__result__ResultTry__branch__unit__rules__Refusal(v17);
    switch (v23.tag) {
    case 0u:
        break;
    case 1u:
    default:
        v13 = v23.as.v1.f1;
        result = core__result__ResultFromResidualErrResidual__from_residual__unit__rules__Refusal__rules__Refusal(v13);
        return result;
    }
    v18 = command__wrong_length(v2);
    v19 = (rules__Refusal){ .tag = 2u };
    v17 = rules__refuse_if(v18, v19);
    v24 = core__result__ResultTry__branch__unit__rules__Refusal(v17);
    switch (v24.tag) {
    case 0u:
        break;
    case 1u:
    default:
        v15 = v24.as.v1.f1;
        result = core__result__ResultFromResidualErrResidual__from_residual__unit__rules__Refusal__rules__Refusal(v15);
        return result;
    }
    v18 = command__wrong_content(v2);
    v19 = (rules__Refusal){ .tag = 3u };
    result = rules__refuse_if(v18, v19);
    return result;
}

/* act::set_state */
static rules__Session act__set_state(slice_u8 v1, rules__ObjectNumber v2, rules__Session v3, slice_mut_u8 v4)
{
    rules__Session result;
    uint8_t *v6;
    slice_mut_u8 v7;
    const uint8_t *v8;
    uint8_t v9;
    v6 = v4.at;
    v7 = (slice_mut_u8){ .at = v6, .length = v4.length };
    response__done(v7);
    v8 = v1.at + 8u;
    v9 = *v8;
    result = session__with_state(v2, v9, v3);
    return result;
}

/* act::show_data */
static void act__show_data(slice_u8 v1, const record__StoredObject *v2, slice_mut_u8 v3)
{
    rules__Offset v4;
    rules__Length v5;
    rules__Length v6;
    rules__Length v7;
    uint8_t *v9;
    slice_mut_u8 v10;
    slice_u8 v11;
    v4 = command__offset(v1);
    v5 = command__asked_length(v1);
    v7 = record__StoredObject__used(v2);
    v6 = bounds__shown_length(v4, v5, v7);
    v9 = v3.at;
    v10 = (slice_mut_u8){ .at = v9, .length = v3.length };
    v11 = record__StoredObject__data(v2, v4, v6);
    response__answer(v10, v11);
    return;
}

/* act::act_on_record */
static void act__act_on_record(rules__Action v1, slice_u8 v2, slice_mut_u8 v3, usize v4, slice_mut_u8 v5)
{
    record__StoredObject v6;
    record__StoredObject v7;
    rules__Offset v8;
    rules__Offset v9;
    record__StoredObject v10;
    const uint8_t *v11;
    slice_u8 v12;
    const record__StoredObject *v14;
    uint8_t *v15;
    slice_mut_u8 v16;
    record__StoredObject v17;
    const uint8_t *v18;
    slice_u8 v19;
    const record__StoredObject *v21;
    uint8_t *v22;
    slice_mut_u8 v23;
    uint8_t *v25;
    slice_mut_u8 v26;
    slice_u8 v27;
    uint8_t *v28;
    slice_mut_u8 v29;
    uint8_t *v31;
    slice_mut_u8 v32;
    slice_u8 v33;
    uint8_t *v34;
    slice_mut_u8 v35;
    uint8_t *v37;
    slice_mut_u8 v38;
    slice_u8 v39;
    uint8_t *v40;
    slice_mut_u8 v41;
    uint8_t *v43;
    slice_mut_u8 v44;
    uint8_t v45;
    uint8_t *v46;
    slice_mut_u8 v47;
    uint8_t *v49;
    slice_mut_u8 v50;
    slice_u8 v51;
    uint8_t *v52;
    slice_mut_u8 v53;
    uint8_t *v55;
    slice_mut_u8 v56;
    uint32_t v57;
    uint8_t *v58;
    slice_mut_u8 v59;
    switch (v1.tag) {
    case 0u:
        v11 = v3.at;
        v12 = (slice_u8){ .at = v11, .length = v3.length };
        v10 = record__StoredObject__at(v12, v4);
        v6 = v10;
        v14 = &v6;
        v15 = v5.at;
        v16 = (slice_mut_u8){ .at = v15, .length = v5.length };
        act__show_data(v2, v14, v16);
        break;
    case 1u:
        v18 = v3.at;
        v19 = (slice_u8){ .at = v18, .length = v3.length };
        v17 = record__StoredObject__at(v19, v4);
        v7 = v17;
        v21 = &v7;
        v22 = v5.at;
        v23 = (slice_mut_u8){ .at = v22, .length = v5.length };
        answer__write_answer(v21, v23);
        break;
    case 2u:
        v8 = command__offset(v2);
        v25 = v3.at;
        v26 = (slice_mut_u8){ .at = v25, .length = v3.length };
        v27 = command__sent_data(v2);
        change__write(v26, v4, v8, v27);
        v28 = v5.at;
        v29 = (slice_mut_u8){ .at = v28, .length = v5.length };
        response__done(v29);
        break;
    case 3u:
        v9 = command__offset(v2);
        v31 = v3.at;
        v32 = (slice_mut_u8){ .at = v31, .length = v3.length };
        v33 = command__sent_data(v2);
        change__erase_and_write(v32, v4, v9, v33);
        v34 = v5.at;
        v35 = (slice_mut_u8){ .at = v34, .length = v5.length };
        response__done(v35);
        break;
    case 4u:
        v37 = v3.at;
        v38 = (slice_mut_u8){ .at = v37, .length = v3.length };
        v39 = command__sent_metadata(v2);
        content__store_content(v38, v4, v39);
        v40 = v5.at;
        v41 = (slice_mut_u8){ .at = v40, .length = v5.length };
        response__done(v41);
        break;
    case 5u:
        v43 = v3.at;
        v44 = (slice_mut_u8){ .at = v43, .length = v3.length };
        v45 = command__step_byte(v2);
        change__count(v44, v4, v45);
        v46 = v5.at;
        v47 = (slice_mut_u8){ .at = v46, .length = v5.length };
        response__done(v47);
        break;
    case 6u:
        v49 = v3.at;
        v50 = (slice_mut_u8){ .at = v49, .length = v3.length };
        v51 = command__sent_body(v2);
        fares__append(v50, v4, v51);
        v52 = v5.at;
        v53 = (slice_mut_u8){ .at = v52, .length = v5.length };
        response__done(v53);
        break;
    case 7u:
    default:
        v55 = v3.at;
        v56 = (slice_mut_u8){ .at = v55, .length = v3.length };
        v57 = command__sent_number(v2);
        fares__acknowledge(v56, v4, v57);
        v58 = v5.at;
        v59 = (slice_mut_u8){ .at = v58, .length = v5.length };
        response__done(v59);
        break;
    }
    return;
}

/* act::shown_session */
static rules__Session act__shown_session(rules__ObjectNumber v1, rules__Length v2, rules__Session v3)
{
    rules__Session result;
    rules__Session v4;
    bool v5;
    bool v6;
    v5 = v1.f0 == 61890u;
    if (v5) {
        v5 = 1u <= v2.f0;
        v6 = v5;
        if (v6) {
            v4 = session__with_error(0u, v3);
            goto end1;
        }
    }
    v4 = v3;
    end1:;
    result = v4;
    return result;
}

/* act::show_byte */
static rules__Session act__show_byte(slice_u8 v1, rules__ObjectNumber v2, uint8_t v3, rules__Session v4, slice_mut_u8 v5)
{
    rules__Session result;
    rules__Length v6;
    rules__Length v7;
    rules__Offset v8;
    rules__Length v9;
    uint8_t *v11;
    slice_mut_u8 v12;
    array_u8_1 v13;
    const uint8_t *v14;
    slice_u8 v15;
    v6 = command__asked_length(v1);
    v8 = command__offset(v1);
    v9 = (rules__Length){ .f0 = 1u };
    v7 = bounds__shown_length(v8, v6, v9);
    v11 = v5.at;
    v12 = (slice_mut_u8){ .at = v11, .length = v5.length };
    v13 = (array_u8_1){ { v3 } };
    v14 = v13.at;
    v15 = (slice_u8){ .at = v14, .length = v7.f0 };
    response__answer(v12, v15);
    result = act__shown_session(v2, v7, v4);
    return result;
}

/* act::act_in_session */
static rules__Session act__act_in_session(rules__Action v1, slice_u8 v2, rules__ObjectNumber v3, uint8_t v4, rules__Session v5, slice_mut_u8 v6)
{
    rules__Session result;
    rules__Session v7;
    uint8_t *v8;
    slice_mut_u8 v9;
    uint8_t *v10;
    slice_mut_u8 v11;
    uint8_t *v12;
    slice_mut_u8 v13;
    switch (v1.tag) {
    case 0u:
        v8 = v6.at;
        v9 = (slice_mut_u8){ .at = v8, .length = v6.length };
        v7 = act__show_byte(v2, v3, v4, v5, v9);
        break;
    case 1u:
        v7 = v5;
        break;
    case 2u:
        v10 = v6.at;
        v11 = (slice_mut_u8){ .at = v10, .length = v6.length };
        v7 = act__set_state(v2, v3, v5, v11);
        break;
    case 3u:
        v12 = v6.at;
        v13 = (slice_mut_u8){ .at = v12, .length = v6.length };
        v7 = act__set_state(v2, v3, v5, v13);
        break;
    case 4u:
        v7 = v5;
        break;
    case 5u:
        v7 = v5;
        break;
    case 6u:
        v7 = v5;
        break;
    case 7u:
    default:
        v7 = v5;
        break;
    }
    result = v7;
    return result;
}

/* store::check_store */
static bool store__check_store(slice_u8 v1)
{
    bool result;
    usize v2;
    usize v3;
    usize v4;
    usize v5;
    usize v6;
    usize v7;
    usize v8;
    usize v9;
    bool v10;
    bool v11;
    usize v12;
    const uint8_t *v13;
    const uint8_t *v14;
    slice_u8 v15;
    bool v16;
    rules__ObjectNumber v17;
    v9 = v1.length;
    v10 = 16384u < v9;
    if (v10) {
        result = false;
        return result;
    }
    v2 = 0u;
    v3 = 0u;
    v4 = 0u;
    for (;;) {
        v11 = v4 < 32u;
        if (!v11) {
            break;
        }
        v12 = v1.length;
        v5 = v12 - v2;
        v11 = v5 < 97u;
        if (v11) {
            result = false;
            return result;
        }
        v6 = record__length_at(v1, v2);
        v11 = v5 < v6;
        if (v11) {
            result = false;
            return result;
        }
        v7 = v2 + v6;
        v13 = v1.at + v2;
        v12 = v7 - v2;
        v14 = v13;
        v15 = (slice_u8){ .at = v14, .length = v12 };
        v11 = record__record_ok(v15);
        v16 = !v11;
        if (v16) {
            result = false;
            return result;
        }
        v17 = record__number_at(v1, v2);
        v8 = (usize)v17.f0;
        v11 = v8 < v3;
        if (v11) {
            result = false;
            return result;
        }
        v16 = v5 == v6;
        if (v16) {
            result = true;
            return result;
        }
        v3 = v8 + 1u;
        v2 = v7;
        v4 = v4 + 1u;
    }
    result = false;
    return result;
}

/* store::find_record */
static core__option__Option__usize store__find_record(slice_u8 v1, rules__ObjectNumber v2)
{
    core__option__Option__usize result;
    usize v3;
    usize v4;
    uint16_t v5;
    usize v6;
    bool v7;
    rules__ObjectNumber v8;
    v3 = 0u;
    for (;;) {
        v6 = v1.length;
        v7 = v3 < v6;
        if (!v7) {
            break;
        }
        v4 = record__data_end(v1, v3);
        v8 = record__number_at(v1, v3);
        v5 = v8.f0;
        v7 = v2.f0 < v5;
        if (v7) {
            result = (core__option__Option__usize){ .tag = 0u };
            return result;
        }
        v7 = v2.f0 == v5;
        if (v7) {
            result = (core__option__Option__usize){ .tag = 1u, .as.v1.f1 = v3 };
            return result;
        }
        v3 = v4;
    }
    result = (core__option__Option__usize){ .tag = 0u };
    return result;
}

/* access::counter_named */
static core__option__Option__u16 access__counter_named(slice_u8 v1)
{
    core__option__Option__u16 result;
    const uint8_t *v2;
    uint8_t v3;
    bool v4;
    uint16_t v5;
    v2 = v1.at + 0u;
    v3 = *v2;
    v4 = v3 != 64u;
    if (v4) {
        result = (core__option__Option__u16){ .tag = 0u };
        return result;
    }
    v5 = primitives__big_endian_at(v1, 1u);
    result = (core__option__Option__u16){ .tag = 1u, .as.v1.f1 = v5 };
    return result;
}

/* access::ends_group */
static bool access__ends_group(slice_u8 v1)
{
    bool result;
    bool v2;
    usize v3;
    const uint8_t *v4;
    uint8_t v5;
    v3 = v1.length;
    v2 = v3 < 4u;
    if (!v2) {
        v4 = v1.at + 3u;
        v5 = *v4;
        v2 = v5 == 254u;
    }
    result = v2;
    return result;
}

/* access::Sight::is_usable */
static bool access__Sight__is_usable(const access__Sight *v1, rules__ObjectNumber v2)
{
    bool result;
    usize v3;
    record__StoredObject v4;
    core__option__Option__usize v5;
    slice_u8 v6;
    record__StoredObject v7;
    bool v8;
    const record__StoredObject *v9;
    bool v10;
    const record__StoredObject *v11;
    v6 = v1->f0;
    v5 = store__find_record(v6, v2);
    switch (v5.tag) {
    case 1u:
        v3 = v5.as.v1.f1;
        break;
    case 0u:
    default:
        result = false;
        return result;
    }
    v6 = v1->f0;
    v7 = record__StoredObject__at(v6, v3);
    v4 = v7;
    v9 = &v4;
    v8 = record__StoredObject__is_up_counter(v9);
    if (v8) {
        v11 = &v4;
        v10 = record__StoredObject__is_exhausted(v11);
        v8 = !v10;
    }
    result = v8;
    return result;
}

/* access::Counters::none */
static access__Counters access__Counters__none(void)
{
    access__Counters result;
    array_u16_7 v1;
    v1 = (array_u16_7){ { 0u, 0u, 0u, 0u, 0u, 0u, 0u } };
    result = (access__Counters){ .f0 = 0u, .f1 = v1 };
    return result;
}

/* access::Counters::numbers */
static slice_u16 access__Counters__numbers(const access__Counters *v1)
{
    slice_u16 result;
    usize v2;
    const uint16_t *v3;
    v2 = v1->f0;
    v3 = v1->f1.at;
    result = (slice_u16){ .at = v3, .length = v2 };
    return result;
}

/* access::Counters::push */
static void access__Counters__push(access__Counters *v1, uint16_t v2)
{
    usize v3;
    usize v4;
    uint16_t *v5;
    uint16_t *v6;
    v3 = v1->f0;
    v4 = v3 * 2u;
    v5 = v1->f1.at;
    v6 = v5 + v4 / 2u;
    *v6 = v2;
    v3 = v1->f0;
    v4 = v3 + 1u;
    v1->f0 = v4;
    return;
}

/* access::Counters::push_named */
static void access__Counters__push_named(access__Counters *v1, slice_u8 v2)
{
    uint16_t v3;
    core__option__Option__u16 v4;
    access__Counters *v6;
    v4 = access__counter_named(v2);
    switch (v4.tag) {
    case 1u:
        v3 = v4.as.v1.f1;
        v6 = v1;
        access__Counters__push(v6, v3);
        break;
    case 0u:
    default:
        break;
    }
    return;
}

/* access::Sight::state_of */
static uint8_t access__Sight__state_of(const access__Sight *v1, uint8_t v2)
{
    uint8_t result;
    uint8_t v3;
    switch (v2) {
    case 112u:
        v3 = v1->f1.f1;
        break;
    case 224u:
        v3 = v1->f1.f2;
        break;
    default:
        v3 = v1->f2;
        break;
    }
    result = v3;
    return result;
}

/* access::Sight::state_holds */
static bool access__Sight__state_holds(const access__Sight *v1, slice_u8 v2)
{
    bool result;
    uint8_t v3;
    uint8_t v4;
    const uint8_t *v5;
    uint8_t v6;
    const uint8_t *v7;
    uint8_t v8;
    const uint8_t *v9;
    bool v10;
    v5 = v2.at + 0u;
    v6 = *v5;
    v3 = access__Sight__state_of(v1, v6);
    v7 = v2.at + 2u;
    v6 = *v7;
    v4 = v6;
    v9 = v2.at + 1u;
    v6 = *v9;
    v8 = v6;
    switch (v8) {
    case 250u:
        v10 = v3 == v4;
        break;
    case 251u:
        v10 = v4 < v3;
        break;
    default:
        v10 = v3 < v4;
        break;
    }
    result = v10;
    return result;
}

/* access::Sight::condition_holds */
static bool access__Sight__condition_holds(const access__Sight *v1, slice_u8 v2)
{
    bool result;
    uint16_t v3;
    core__option__Option__u16 v4;
    bool v5;
    rules__ObjectNumber v6;
    v4 = access__counter_named(v2);
    switch (v4.tag) {
    case 1u:
        v3 = v4.as.v1.f1;
        v6 = (rules__ObjectNumber){ .f0 = v3 };
        v5 = access__Sight__is_usable(v1, v6);
        break;
    case 0u:
    default:
        v5 = access__Sight__state_holds(v1, v2);
        break;
    }
    result = v5;
    return result;
}

/* access::Sight::deciding_group */
static core__option__Option__access__Counters access__Sight__deciding_group(const access__Sight *v1, slice_u8 v2)
{
    core__option__Option__access__Counters result;
    access__Counters v3;
    bool v4;
    core__iter__slices__Chunks__u8 v5;
    core__iter__slices__Chunks__u8 v6;
    slice_u8 v7;
    slice_u8 v8;
    access__Counters v9;
    core__iter__slices__Chunks__u8 v10;
    core__iter__slices__Chunks__u8 v11;
    core__iter__slices__Chunks__u8 v12;
    core__option__Option__slice_u8 v13;
    core__iter__slices__Chunks__u8 *v14;
    slice_u8 v15;
    bool v16;
    access__Counters *v18;
    bool v19;
    bool v20;
    access__Counters v21;
    access__Counters v22;
    v9 = access__Counters__none();
    v3 = v9;
    v4 = true;
    v10 = core__iter__slices__slice_T__chunks__u8(v2, 4u);
    v5 = v10;
    v12 = v5;
    v11 = core__iter__traits__AnyIntoIterator__into_iter__Chunks__u8__slice_u8(v12);
    v6 = v11;
    for (;;) {
        v14 = &v6;
        v13 = core__iter__slices__ChunksIterator__next__u8(v14);
        switch (v13.tag) {
        case 1u:
            v7 = v13.as.v1.f1;
            v15 = v7;
            break;
        case 0u:
        default:
            goto end1;
        }
        v8 = v15;
        v16 = v4;
        if (v16) {
            v16 = access__Sight__condition_holds(v1, v8);
        }
        v4 = v16;
        v18 = &v3;
        access__Counters__push_named(v18, v8);
        v19 = access__ends_group(v8);
        if (v19) {
            v20 = v4;
            if (v20) {
                v21 = v3;
                result = (core__option__Option__access__Counters){ .tag = 1u, .as.v1.f1 = v21 };
                return result;
            }
            v22 = access__Counters__none();
            v3 = v22;
            v4 = true;
        }
    }
    end1:;
    result = (core__option__Option__access__Counters){ .tag = 0u };
    return result;
}

/* access::Sight::grant_of */
static core__option__Option__access__Counters access__Sight__grant_of(const access__Sight *v1, slice_u8 v2)
{
    core__option__Option__access__Counters result;
    const uint8_t *v3;
    core__option__Option__access__Counters v4;
    bool v5;
    const uint8_t *v6;
    uint8_t v7;
    bool v8;
    access__Counters v9;
    v5 = v2.length < 1u;
    if (v5) {
        goto end2;
    }
    v5 = v2.length < 2u;
    if (v5) {
        v6 = v2.at + 0u;
        v3 = v6;
        v7 = *v3;
        v8 = v7 == 0u;
        if (v8) {
            v9 = access__Counters__none();
            v4 = (core__option__Option__access__Counters){ .tag = 1u, .as.v1.f1 = v9 };
            goto end1;
        }
        v4 = (core__option__Option__access__Counters){ .tag = 0u };
        goto end1;
    }
    goto end2;
    end2:;
    v4 = access__Sight__deciding_group(v1, v2);
    end1:;
    result = v4;
    return result;
}

/* access::granted */
static core__option__Option__access__Counters access__granted(rules__Action v1, const record__StoredObject *v2, slice_u8 v3, rules__Session v4)
{
    core__option__Option__access__Counters result;
    access__Sight v5;
    uint8_t v6;
    core__option__Option__access__Counters v7;
    access__Counters v8;
    const access__Sight *v9;
    slice_u8 v10;
    rules__Slot v11;
    bool v12;
    const access__Sight *v13;
    slice_u8 v14;
    rules__Slot v15;
    const access__Sight *v16;
    slice_u8 v17;
    rules__Slot v18;
    v6 = record__StoredObject__lcso(v2);
    v5 = (access__Sight){ .f0 = v3, .f1 = v4, .f2 = v6 };
    switch (v1.tag) {
    case 1u:
        v8 = access__Counters__none();
        v7 = (core__option__Option__access__Counters){ .tag = 1u, .as.v1.f1 = v8 };
        break;
    case 0u:
        v9 = &v5;
        v11 = (rules__Slot){ .tag = 1u };
        v10 = record__StoredObject__expression(v2, v11);
        v7 = access__Sight__grant_of(v9, v10);
        break;
    case 2u:
    case 3u:
        v12 = record__StoredObject__is_queue(v2);
        if (v12) {
            result = (core__option__Option__access__Counters){ .tag = 0u };
            return result;
        }
        v13 = &v5;
        v15 = (rules__Slot){ .tag = 0u };
        v14 = record__StoredObject__expression(v2, v15);
        v7 = access__Sight__grant_of(v13, v14);
        break;
    case 4u:
    case 5u:
    case 6u:
    case 7u:
    default:
        v16 = &v5;
        v18 = (rules__Slot){ .tag = 0u };
        v17 = record__StoredObject__expression(v2, v18);
        v7 = access__Sight__grant_of(v16, v17);
        break;
    }
    result = v7;
    return result;
}

/* judge::find_target */
static core__option__Option__judge__Target judge__find_target(slice_u8 v1, slice_u8 v2, rules__Session v3)
{
    core__option__Option__judge__Target result;
    rules__ObjectNumber v4;
    usize v5;
    usize v6;
    core__option__Option__judge__Target v8;
    rules__Kind v9;
    judge__Target v10;
    rules__Kind v11;
    judge__Target v12;
    rules__Kind v13;
    judge__Target v14;
    core__ops__ControlFlow__NoValue__usize v15;
    core__option__Option__usize v16;
    usize v17;
    judge__Target v18;
    v4 = command__object_number(v1);
    switch (v4.f0) {
    case 57536u:
        v9 = (rules__Kind){ .tag = 3u };
        v10 = (judge__Target){ .tag = 0u, .as.v0.f1 = v4, .as.v0.f2 = v9, .as.v0.f3 = v3.f1 };
        v8 = (core__option__Option__judge__Target){ .tag = 1u, .as.v1.f1 = v10 };
        break;
    case 61888u:
        v11 = (rules__Kind){ .tag = 3u };
        v12 = (judge__Target){ .tag = 0u, .as.v0.f1 = v4, .as.v0.f2 = v11, .as.v0.f3 = v3.f2 };
        v8 = (core__option__Option__judge__Target){ .tag = 1u, .as.v1.f1 = v12 };
        break;
    case 61890u:
        v13 = (rules__Kind){ .tag = 4u };
        v14 = (judge__Target){ .tag = 0u, .as.v0.f1 = v4, .as.v0.f2 = v13, .as.v0.f3 = v3.f3 };
        v8 = (core__option__Option__judge__Target){ .tag = 1u, .as.v1.f1 = v14 };
        break;
    default:
        v16 = store__find_record(v2, v4);
        v15 = core__option__OptionTry__branch__usize(v16);
        switch (v15.tag) {
        case 0u:
            v6 = v15.as.v0.f1;
            v17 = v6;
            break;
        case 1u:
        default:
            result = core__option__OptionFromResidualNoValue__from_residual__judge__Target();
            return result;
        }
        v5 = v17;
        v18 = (judge__Target){ .tag = 1u, .as.v1.f1 = v5 };
        v8 = (core__option__Option__judge__Target){ .tag = 1u, .as.v1.f1 = v18 };
        break;
    }
    result = v8;
    return result;
}

/* judge::is_life_cycle */
static bool judge__is_life_cycle(rules__Kind v1)
{
    bool result;
    bool v2;
    switch (v1.tag) {
    case 3u:
        v2 = true;
        break;
    case 0u:
    case 1u:
    case 2u:
    case 4u:
    default:
        v2 = false;
        break;
    }
    result = v2;
    return result;
}

/* judge::judge_acknowledge */
static core__result__Result__unit__rules__Refusal judge__judge_acknowledge(slice_u8 v1, const record__StoredObject *v2, usize v3)
{
    core__result__Result__unit__rules__Refusal result;
    core__result__ErrResidual__rules__Refusal v5;
    core__ops__ControlFlow__ErrResidual__rules__Refusal__unit v6;
    core__result__Result__unit__rules__Refusal v7;
    uint32_t v8;
    rules__Length v9;
    v8 = command__sent_number(v1);
    v7 = fares__judge_acknowledge(v2, v8);
    v6 = core__result__ResultTry__branch__unit__rules__Refusal(v7);
    switch (v6.tag) {
    case 0u:
        break;
    case 1u:
    default:
        v5 = v6.as.v1.f1;
        result = core__result__ResultFromResidualErrResidual__from_residual__unit__rules__Refusal__rules__Refusal(v5);
        return result;
    }
    v9 = (rules__Length){ .f0 = 0u };
    result = bounds__fitting(v9, v3);
    return result;
}

/* judge::judge_append */
static core__result__Result__unit__rules__Refusal judge__judge_append(slice_u8 v1, const record__StoredObject *v2, usize v3)
{
    core__result__Result__unit__rules__Refusal result;
    core__result__ErrResidual__rules__Refusal v5;
    core__ops__ControlFlow__ErrResidual__rules__Refusal__unit v6;
    core__result__Result__unit__rules__Refusal v7;
    slice_u8 v8;
    rules__Length v9;
    v8 = command__sent_body(v1);
    v7 = fares__judge_append(v2, v8);
    v6 = core__result__ResultTry__branch__unit__rules__Refusal(v7);
    switch (v6.tag) {
    case 0u:
        break;
    case 1u:
    default:
        v5 = v6.as.v1.f1;
        result = core__result__ResultFromResidualErrResidual__from_residual__unit__rules__Refusal__rules__Refusal(v5);
        return result;
    }
    v9 = (rules__Length){ .f0 = 0u };
    result = bounds__fitting(v9, v3);
    return result;
}

/* judge::judge_count */
static core__result__Result__unit__rules__Refusal judge__judge_count(slice_u8 v1, const record__StoredObject *v2, usize v3)
{
    core__result__Result__unit__rules__Refusal result;
    bool v4;
    core__result__ErrResidual__rules__Refusal v6;
    core__result__ErrResidual__rules__Refusal v8;
    core__result__ErrResidual__rules__Refusal v10;
    rules__Offset v11;
    core__ops__ControlFlow__ErrResidual__rules__Refusal__unit v12;
    core__result__Result__unit__rules__Refusal v13;
    bool v14;
    bool v15;
    rules__Refusal v16;
    core__ops__ControlFlow__ErrResidual__rules__Refusal__unit v17;
    core__ops__ControlFlow__ErrResidual__rules__Refusal__unit v18;
    rules__Length v19;
    v11 = command__offset(v1);
    v4 = v11.f0 == 0u;
    v14 = record__StoredObject__is_counter(v2);
    v15 = !v14;
    v16 = (rules__Refusal){ .tag = 1u };
    v13 = rules__refuse_if(v15, v16);
    v12 = core__result__ResultTry__branch__unit__rules__Refusal(v13);
    switch (v12.tag) {
    case 0u:
        break;
    case 1u:
    default:
        v6 = v12.as.v1.f1;
        result = core__result__ResultFromResidualErrResidual__from_residual__unit__rules__Refusal__rules__Refusal(v6);
        return result;
    }
    v14 = !v4;
    v16 = (rules__Refusal){ .tag = 6u };
    v13 = rules__refuse_if(v14, v16);
    v17 = core__result__ResultTry__branch__unit__rules__Refusal(v13);
    switch (v17.tag) {
    case 0u:
        break;
    case 1u:
    default:
        v8 = v17.as.v1.f1;
        result = core__result__ResultFromResidualErrResidual__from_residual__unit__rules__Refusal__rules__Refusal(v8);
        return result;
    }
    v15 = record__StoredObject__is_exhausted(v2);
    v16 = (rules__Refusal){ .tag = 6u };
    v13 = rules__refuse_if(v15, v16);
    v18 = core__result__ResultTry__branch__unit__rules__Refusal(v13);
    switch (v18.tag) {
    case 0u:
        break;
    case 1u:
    default:
        v10 = v18.as.v1.f1;
        result = core__result__ResultFromResidualErrResidual__from_residual__unit__rules__Refusal__rules__Refusal(v10);
        return result;
    }
    v19 = (rules__Length){ .f0 = 0u };
    result = bounds__fitting(v19, v3);
    return result;
}

/* judge::judge_get */
static core__result__Result__unit__rules__Refusal judge__judge_get(slice_u8 v1, rules__Length v2, usize v3)
{
    core__result__Result__unit__rules__Refusal result;
    rules__Offset v4;
    rules__Length v5;
    v4 = command__offset(v1);
    v5 = command__asked_length(v1);
    result = bounds__judge_read(v4, v5, v2, v3);
    return result;
}

/* judge::judge_metadata */
static core__result__Result__unit__rules__Refusal judge__judge_metadata(slice_u8 v1, const record__StoredObject *v2, usize v3)
{
    core__result__Result__unit__rules__Refusal result;
    uint8_t v4;
    bool v5;
    core__result__ErrResidual__rules__Refusal v7;
    slice_u8 v8;
    core__ops__ControlFlow__ErrResidual__rules__Refusal__unit v9;
    core__result__Result__unit__rules__Refusal v10;
    bool v11;
    rules__Refusal v12;
    rules__Length v13;
    v4 = record__StoredObject__lcso(v2);
    v8 = command__sent_metadata(v1);
    v5 = content__content_allowed(v8, v4);
    v11 = !v5;
    v12 = (rules__Refusal){ .tag = 3u };
    v10 = rules__refuse_if(v11, v12);
    v9 = core__result__ResultTry__branch__unit__rules__Refusal(v10);
    switch (v9.tag) {
    case 0u:
        break;
    case 1u:
    default:
        v7 = v9.as.v1.f1;
        result = core__result__ResultFromResidualErrResidual__from_residual__unit__rules__Refusal__rules__Refusal(v7);
        return result;
    }
    v13 = (rules__Length){ .f0 = 0u };
    result = bounds__fitting(v13, v3);
    return result;
}

/* judge::judge_state */
static core__result__Result__unit__rules__Refusal judge__judge_state(slice_u8 v1, rules__Kind v2, uint8_t v3, usize v4)
{
    core__result__Result__unit__rules__Refusal result;
    slice_u8 v5;
    bool v6;
    bool v7;
    core__result__ErrResidual__rules__Refusal v9;
    core__result__ErrResidual__rules__Refusal v11;
    core__result__ErrResidual__rules__Refusal v13;
    rules__Offset v14;
    usize v15;
    rules__Length v16;
    rules__Length v17;
    const uint8_t *v18;
    uint8_t v19;
    core__ops__ControlFlow__ErrResidual__rules__Refusal__unit v20;
    core__result__Result__unit__rules__Refusal v21;
    bool v22;
    bool v23;
    rules__Refusal v24;
    core__ops__ControlFlow__ErrResidual__rules__Refusal__unit v25;
    core__ops__ControlFlow__ErrResidual__rules__Refusal__unit v26;
    v5 = command__sent_data(v1);
    v14 = command__offset(v1);
    v15 = v5.length;
    v16 = (rules__Length){ .f0 = v15 };
    v17 = (rules__Length){ .f0 = 1u };
    v6 = bounds__fits(v14, v16, v17);
    v18 = v1.at + 8u;
    v19 = *v18;
    v7 = expression__may_become(v3, v19);
    v22 = judge__is_life_cycle(v2);
    v23 = !v22;
    v24 = (rules__Refusal){ .tag = 5u };
    v21 = rules__refuse_if(v23, v24);
    v20 = core__result__ResultTry__branch__unit__rules__Refusal(v21);
    switch (v20.tag) {
    case 0u:
        break;
    case 1u:
    default:
        v9 = v20.as.v1.f1;
        result = core__result__ResultFromResidualErrResidual__from_residual__unit__rules__Refusal__rules__Refusal(v9);
        return result;
    }
    v22 = !v6;
    v24 = (rules__Refusal){ .tag = 6u };
    v21 = rules__refuse_if(v22, v24);
    v25 = core__result__ResultTry__branch__unit__rules__Refusal(v21);
    switch (v25.tag) {
    case 0u:
        break;
    case 1u:
    default:
        v11 = v25.as.v1.f1;
        result = core__result__ResultFromResidualErrResidual__from_residual__unit__rules__Refusal__rules__Refusal(v11);
        return result;
    }
    v23 = !v7;
    v24 = (rules__Refusal){ .tag = 3u };
    v21 = rules__refuse_if(v23, v24);
    v26 = core__result__ResultTry__branch__unit__rules__Refusal(v21);
    switch (v26.tag) {
    case 0u:
        break;
    case 1u:
    default:
        v13 = v26.as.v1.f1;
        result = core__result__ResultFromResidualErrResidual__from_residual__unit__rules__Refusal__rules__Refusal(v13);
        return result;
    }
    v16 = (rules__Length){ .f0 = 0u };
    result = bounds__fitting(v16, v4);
    return result;
}

/* judge::refuse_in_session */
static core__result__Result__unit__rules__Refusal judge__refuse_in_session(rules__Kind v1)
{
    core__result__Result__unit__rules__Refusal result;
    core__result__ErrResidual__rules__Refusal v3;
    core__ops__ControlFlow__ErrResidual__rules__Refusal__unit v4;
    core__result__Result__unit__rules__Refusal v5;
    bool v6;
    rules__Refusal v7;
    v6 = judge__is_life_cycle(v1);
    v7 = (rules__Refusal){ .tag = 1u };
    v5 = rules__refuse_if(v6, v7);
    v4 = core__result__ResultTry__branch__unit__rules__Refusal(v5);
    switch (v4.tag) {
    case 0u:
        break;
    case 1u:
    default:
        v3 = v4.as.v1.f1;
        result = core__result__ResultFromResidualErrResidual__from_residual__unit__rules__Refusal__rules__Refusal(v3);
        return result;
    }
    v7 = (rules__Refusal){ .tag = 5u };
    result = (core__result__Result__unit__rules__Refusal){ .tag = 1u, .as.v1.f1 = v7 };
    return result;
}

/* judge::judge_session */
static core__result__Result__unit__rules__Refusal judge__judge_session(rules__Action v1, slice_u8 v2, rules__Kind v3, uint8_t v4, usize v5)
{
    core__result__Result__unit__rules__Refusal result;
    core__result__Result__unit__rules__Refusal v6;
    rules__Length v7;
    rules__Refusal v8;
    rules__Refusal v9;
    switch (v1.tag) {
    case 0u:
        v7 = (rules__Length){ .f0 = 1u };
        v6 = judge__judge_get(v2, v7, v5);
        break;
    case 1u:
        v8 = (rules__Refusal){ .tag = 5u };
        v6 = (core__result__Result__unit__rules__Refusal){ .tag = 1u, .as.v1.f1 = v8 };
        break;
    case 2u:
        v6 = judge__judge_state(v2, v3, v4, v5);
        break;
    case 3u:
        v6 = judge__judge_state(v2, v3, v4, v5);
        break;
    case 4u:
        v9 = (rules__Refusal){ .tag = 5u };
        v6 = (core__result__Result__unit__rules__Refusal){ .tag = 1u, .as.v1.f1 = v9 };
        break;
    case 5u:
        v6 = judge__refuse_in_session(v3);
        break;
    case 6u:
        v6 = judge__refuse_in_session(v3);
        break;
    case 7u:
    default:
        v6 = judge__refuse_in_session(v3);
        break;
    }
    result = v6;
    return result;
}

/* judge::without_counters */
static judge__Judgment judge__without_counters(core__result__Result__unit__rules__Refusal v1)
{
    judge__Judgment result;
    access__Counters v2;
    v2 = access__Counters__none();
    result = (judge__Judgment){ .f0 = v1, .f1 = v2 };
    return result;
}

/* judge::write_fits */
static bool judge__write_fits(slice_u8 v1, rules__Kind v2, rules__Length v3)
{
    bool result;
    rules__Offset v4;
    rules__Length v5;
    slice_u8 v6;
    usize v7;
    bool v8;
    bool v9;
    v4 = command__offset(v1);
    v6 = command__sent_data(v1);
    v7 = v6.length;
    v5 = (rules__Length){ .f0 = v7 };
    switch (v2.tag) {
    case 1u:
        v9 = v4.f0 == 0u;
        if (v9) {
            v9 = v5.f0 == 8u;
        }
        v8 = v9;
        break;
    case 0u:
    case 2u:
    case 3u:
    case 4u:
    default:
        v8 = bounds__fits(v4, v5, v3);
        break;
    }
    result = v8;
    return result;
}

/* judge::judge_write */
static core__result__Result__unit__rules__Refusal judge__judge_write(slice_u8 v1, const record__StoredObject *v2, usize v3)
{
    core__result__Result__unit__rules__Refusal result;
    bool v4;
    core__result__ErrResidual__rules__Refusal v6;
    rules__Kind v7;
    rules__Length v8;
    core__ops__ControlFlow__ErrResidual__rules__Refusal__unit v9;
    core__result__Result__unit__rules__Refusal v10;
    bool v11;
    rules__Refusal v12;
    v7 = record__StoredObject__kind(v2);
    v8 = record__StoredObject__maximum(v2);
    v4 = judge__write_fits(v1, v7, v8);
    v11 = !v4;
    v12 = (rules__Refusal){ .tag = 6u };
    v10 = rules__refuse_if(v11, v12);
    v9 = core__result__ResultTry__branch__unit__rules__Refusal(v10);
    switch (v9.tag) {
    case 0u:
        break;
    case 1u:
    default:
        v6 = v9.as.v1.f1;
        result = core__result__ResultFromResidualErrResidual__from_residual__unit__rules__Refusal__rules__Refusal(v6);
        return result;
    }
    v8 = (rules__Length){ .f0 = 0u };
    result = bounds__fitting(v8, v3);
    return result;
}

/* judge::judge_own */
static core__result__Result__unit__rules__Refusal judge__judge_own(rules__Action v1, slice_u8 v2, const record__StoredObject *v3, usize v4)
{
    core__result__Result__unit__rules__Refusal result;
    core__result__Result__unit__rules__Refusal v5;
    rules__Length v6;
    rules__Length v7;
    switch (v1.tag) {
    case 0u:
        v6 = record__StoredObject__used(v3);
        v5 = judge__judge_get(v2, v6, v4);
        break;
    case 1u:
        v7 = answer__answer_length(v3);
        v5 = bounds__fitting(v7, v4);
        break;
    case 2u:
        v5 = judge__judge_write(v2, v3, v4);
        break;
    case 3u:
        v5 = judge__judge_write(v2, v3, v4);
        break;
    case 4u:
        v5 = judge__judge_metadata(v2, v3, v4);
        break;
    case 5u:
        v5 = judge__judge_count(v2, v3, v4);
        break;
    case 6u:
        v5 = judge__judge_append(v2, v3, v4);
        break;
    case 7u:
    default:
        v5 = judge__judge_acknowledge(v2, v3, v4);
        break;
    }
    result = v5;
    return result;
}

/* judge::judge_stored */
static judge__Judgment judge__judge_stored(rules__Action v1, slice_u8 v2, const record__StoredObject *v3, slice_u8 v4, rules__Session v5, usize v6)
{
    judge__Judgment result;
    access__Counters v7;
    core__option__Option__access__Counters v8;
    rules__Refusal v9;
    core__result__Result__unit__rules__Refusal v10;
    core__result__Result__unit__rules__Refusal v11;
    v8 = access__granted(v1, v3, v4, v5);
    switch (v8.tag) {
    case 1u:
        v7 = v8.as.v1.f1;
        break;
    case 0u:
    default:
        v9 = (rules__Refusal){ .tag = 5u };
        v10 = (core__result__Result__unit__rules__Refusal){ .tag = 1u, .as.v1.f1 = v9 };
        result = judge__without_counters(v10);
        return result;
    }
    v11 = judge__judge_own(v1, v2, v3, v6);
    result = (judge__Judgment){ .f0 = v11, .f1 = v7 };
    return result;
}

/* judge::judge_target */
static judge__Judgment judge__judge_target(rules__Action v1, slice_u8 v2, core__option__Option__judge__Target v3, slice_u8 v4, rules__Session v5, usize v6)
{
    judge__Judgment result;
    judge__Target v7;
    rules__Kind v8;
    uint8_t v9;
    usize v10;
    record__StoredObject v11;
    rules__Refusal v12;
    core__result__Result__unit__rules__Refusal v13;
    judge__Judgment v14;
    core__result__Result__unit__rules__Refusal v15;
    record__StoredObject v16;
    const record__StoredObject *v17;
    switch (v3.tag) {
    case 1u:
        v7 = v3.as.v1.f1;
        break;
    case 0u:
    default:
        v12 = (rules__Refusal){ .tag = 0u };
        v13 = (core__result__Result__unit__rules__Refusal){ .tag = 1u, .as.v1.f1 = v12 };
        result = judge__without_counters(v13);
        return result;
    }
    switch (v7.tag) {
    case 0u:
        v8 = v7.as.v0.f2;
        v9 = v7.as.v0.f3;
        v15 = judge__judge_session(v1, v2, v8, v9, v6);
        v14 = judge__without_counters(v15);
        break;
    case 1u:
    default:
        v10 = v7.as.v1.f1;
        v16 = record__StoredObject__at(v4, v10);
        v11 = v16;
        v17 = &v11;
        v14 = judge__judge_stored(v1, v2, v17, v4, v5, v6);
        break;
    }
    result = v14;
    return result;
}

/* usage::is_listed */
static bool usage__is_listed(slice_u16 v1, uint16_t v2)
{
    bool result;
    usize v3;
    const uint16_t *v4;
    usize v5;
    bool v6;
    usize v7;
    const uint16_t *v8;
    uint16_t v9;
    bool v10;
    v3 = 0u;
    v5 = v1.length;
    for (;;) {
        v6 = v3 < v5;
        if (!v6) {
            break;
        }
        v7 = v3 * 2u;
        v8 = v1.at + v7 / 2u;
        v4 = v8;
        v9 = *v4;
        v10 = v9 == v2;
        if (v10) {
            result = true;
            return result;
        }
        v3 = v3 + 1u;
    }
    result = false;
    return result;
}

/* usage::step_counter */
static void usage__step_counter(slice_mut_u8 v1, rules__ObjectNumber v2)
{
    usize v3;
    core__option__Option__usize v4;
    const uint8_t *v5;
    slice_u8 v6;
    bool v7;
    record__StoredObject v8;
    const uint8_t *v9;
    slice_u8 v10;
    record__StoredObject v11;
    const record__StoredObject *v12;
    uint8_t *v14;
    slice_mut_u8 v15;
    v5 = v1.at;
    v6 = (slice_u8){ .at = v5, .length = v1.length };
    v4 = store__find_record(v6, v2);
    switch (v4.tag) {
    case 1u:
        v3 = v4.as.v1.f1;
        break;
    case 0u:
    default:
        return;
    }
    v9 = v1.at;
    v10 = (slice_u8){ .at = v9, .length = v1.length };
    v8 = record__StoredObject__at(v10, v3);
    v11 = v8;
    v12 = &v11;
    v7 = record__StoredObject__is_up_counter(v12);
    if (v7) {
        v14 = v1.at;
        v15 = (slice_mut_u8){ .at = v14, .length = v1.length };
        change__count(v15, v3, 1u);
    }
    return;
}

/* usage::use_up */
static void usage__use_up(slice_mut_u8 v1, const access__Counters *v2)
{
    slice_u16 v3;
    usize v4;
    const uint16_t *v5;
    usize v6;
    bool v7;
    usize v8;
    const uint16_t *v9;
    bool v10;
    const uint16_t *v11;
    slice_u16 v12;
    uint16_t v13;
    bool v14;
    uint8_t *v16;
    slice_mut_u8 v17;
    uint16_t v18;
    rules__ObjectNumber v19;
    v3 = access__Counters__numbers(v2);
    v4 = 0u;
    v6 = v3.length;
    for (;;) {
        v7 = v4 < v6;
        if (!v7) {
            break;
        }
        v8 = v4 * 2u;
        v9 = v3.at + v8 / 2u;
        v5 = v9;
        v11 = v3.at;
        v12 = (slice_u16){ .at = v11, .length = v4 };
        v13 = *v5;
        v10 = usage__is_listed(v12, v13);
        v14 = !v10;
        if (v14) {
            v16 = v1.at;
            v17 = (slice_mut_u8){ .at = v16, .length = v1.length };
            v18 = *v5;
            v19 = (rules__ObjectNumber){ .f0 = v18 };
            usage__step_counter(v17, v19);
        }
        v4 = v4 + 1u;
    }
    return;
}

/* element::perform */
static rules__Session element__perform(rules__Action v1, slice_u8 v2, core__option__Option__judge__Target v3, const access__Counters *v4, slice_mut_u8 v5, rules__Session v6, slice_mut_u8 v7)
{
    rules__Session result;
    judge__Target v8;
    rules__ObjectNumber v9;
    uint8_t v10;
    usize v11;
    rules__Session v12;
    uint8_t *v13;
    slice_mut_u8 v14;
    uint8_t *v16;
    slice_mut_u8 v17;
    uint8_t *v18;
    slice_mut_u8 v19;
    uint8_t *v20;
    slice_mut_u8 v21;
    switch (v3.tag) {
    case 1u:
        v8 = v3.as.v1.f1;
        break;
    case 0u:
    default:
        result = v6;
        return result;
    }
    switch (v8.tag) {
    case 0u:
        v9 = v8.as.v0.f1;
        v10 = v8.as.v0.f3;
        v13 = v7.at;
        v14 = (slice_mut_u8){ .at = v13, .length = v7.length };
        v12 = act__act_in_session(v1, v2, v9, v10, v6, v14);
        break;
    case 1u:
    default:
        v11 = v8.as.v1.f1;
        v16 = v5.at;
        v17 = (slice_mut_u8){ .at = v16, .length = v5.length };
        v18 = v7.at;
        v19 = (slice_mut_u8){ .at = v18, .length = v7.length };
        act__act_on_record(v1, v2, v17, v11, v19);
        v20 = v5.at;
        v21 = (slice_mut_u8){ .at = v20, .length = v5.length };
        usage__use_up(v21, v4);
        v12 = v6;
        break;
    }
    result = v12;
    return result;
}

/* element::refuse */
static element__Answer element__refuse(rules__Refusal v1, rules__Session v2, slice_mut_u8 v3)
{
    element__Answer result;
    uint8_t *v5;
    slice_mut_u8 v6;
    rules__Session v7;
    uint8_t v8;
    v5 = v3.at;
    v6 = (slice_mut_u8){ .at = v5, .length = v3.length };
    response__refuse(v6);
    v8 = rules__U8FromRefusal__from(v1);
    v7 = session__raised(v8, v2);
    result = (element__Answer){ .f0 = 0u, .f1 = v7 };
    return result;
}

/* element::on_object */
static element__Answer element__on_object(rules__Action v1, slice_u8 v2, slice_mut_u8 v3, rules__Session v4, slice_mut_u8 v5)
{
    element__Answer result;
    core__option__Option__judge__Target v6;
    judge__Judgment v7;
    rules__Refusal v8;
    const uint8_t *v9;
    slice_u8 v10;
    judge__Judgment v11;
    const uint8_t *v12;
    slice_u8 v13;
    usize v14;
    element__Answer v15;
    uint8_t *v16;
    slice_mut_u8 v17;
    rules__Session v18;
    const access__Counters *v19;
    uint8_t *v20;
    slice_mut_u8 v21;
    uint8_t *v22;
    slice_mut_u8 v23;
    v9 = v3.at;
    v10 = (slice_u8){ .at = v9, .length = v3.length };
    v6 = judge__find_target(v2, v10, v4);
    v12 = v3.at;
    v13 = (slice_u8){ .at = v12, .length = v3.length };
    v14 = v5.length;
    v11 = judge__judge_target(v1, v2, v6, v13, v4, v14);
    v7 = v11;
    switch (v7.f0.tag) {
    case 1u:
        v8 = v7.f0.as.v1.f1;
        v16 = v5.at;
        v17 = (slice_mut_u8){ .at = v16, .length = v5.length };
        v15 = element__refuse(v8, v4, v17);
        break;
    case 0u:
    default:
        v19 = &v7.f1;
        v20 = v3.at;
        v21 = (slice_mut_u8){ .at = v20, .length = v3.length };
        v22 = v5.at;
        v23 = (slice_mut_u8){ .at = v22, .length = v5.length };
        v18 = element__perform(v1, v2, v6, v19, v21, v4, v23);
        v15 = (element__Answer){ .f0 = 0u, .f1 = v18 };
        break;
    }
    result = v15;
    return result;
}

/* element::set_session */
static element__Answer element__set_session(rules__Session v1, slice_mut_u8 v2)
{
    element__Answer result;
    uint8_t *v4;
    slice_mut_u8 v5;
    v4 = v2.at;
    v5 = (slice_mut_u8){ .at = v4, .length = v2.length };
    response__done(v5);
    result = (element__Answer){ .f0 = 0u, .f1 = v1 };
    return result;
}

/* element::carry_out */
static element__Answer element__carry_out(slice_u8 v1, slice_mut_u8 v2, rules__Session v3, slice_mut_u8 v4)
{
    element__Answer result;
    rules__Action v5;
    rules__Row v6;
    element__Answer v7;
    uint8_t *v8;
    slice_mut_u8 v9;
    uint8_t *v10;
    slice_mut_u8 v11;
    rules__Session v12;
    uint8_t *v13;
    slice_mut_u8 v14;
    rules__Session v15;
    uint8_t *v16;
    slice_mut_u8 v17;
    uint8_t *v18;
    slice_mut_u8 v19;
    v6 = command__row_of_command(v1);
    switch (v6.tag) {
    case 0u:
        v5 = v6.as.v0.f1;
        v8 = v2.at;
        v9 = (slice_mut_u8){ .at = v8, .length = v2.length };
        v10 = v4.at;
        v11 = (slice_mut_u8){ .at = v10, .length = v4.length };
        v7 = element__on_object(v5, v1, v9, v3, v11);
        break;
    case 1u:
        v12 = session__with_opened(true, v3);
        v13 = v4.at;
        v14 = (slice_mut_u8){ .at = v13, .length = v4.length };
        v7 = element__set_session(v12, v14);
        break;
    case 2u:
        v15 = session__with_opened(false, v3);
        v16 = v4.at;
        v17 = (slice_mut_u8){ .at = v16, .length = v4.length };
        v7 = element__set_session(v15, v17);
        break;
    case 3u:
    default:
        v18 = v4.at;
        v19 = (slice_mut_u8){ .at = v18, .length = v4.length };
        v7 = element__set_session(v3, v19);
        break;
    }
    result = v7;
    return result;
}

/* element::execute */
static element__Answer element__execute(slice_u8 v1, slice_mut_u8 v2, rules__Session v3, slice_mut_u8 v4)
{
    element__Answer result;
    rules__Session v5;
    bool v6;
    rules__Refusal v7;
    usize v8;
    bool v9;
    const uint8_t *v10;
    slice_u8 v11;
    core__result__Result__unit__rules__Refusal v12;
    element__Answer v13;
    uint8_t *v14;
    slice_mut_u8 v15;
    uint8_t *v16;
    slice_mut_u8 v17;
    uint8_t *v18;
    slice_mut_u8 v19;
    v8 = v4.length;
    v9 = v8 < 4u;
    if (v9) {
        result = (element__Answer){ .f0 = 1u, .f1 = v3 };
        return result;
    }
    v5 = command__flushed(v1, v3);
    v10 = v2.at;
    v11 = (slice_u8){ .at = v10, .length = v2.length };
    v6 = store__check_store(v11);
    v12 = command__early(v6, v1, v5);
    switch (v12.tag) {
    case 1u:
        v7 = v12.as.v1.f1;
        v14 = v4.at;
        v15 = (slice_mut_u8){ .at = v14, .length = v4.length };
        v13 = element__refuse(v7, v5, v15);
        break;
    case 0u:
    default:
        v16 = v2.at;
        v17 = (slice_mut_u8){ .at = v16, .length = v2.length };
        v18 = v4.at;
        v19 = (slice_mut_u8){ .at = v18, .length = v4.length };
        v13 = element__carry_out(v1, v17, v5, v19);
        break;
    }
    result = v13;
    return result;
}

/* runs::Destruct++none::drop<u64> */
static void runs__Destruct__none__drop__usize(usize v1)
{
    (void)v1;
    return;
}

/* runs::fitted */
static usize runs__fitted(slice_usize v1, usize v2, usize v3)
{
    usize result;
    usize v4;
    core__option__Option__size v5;
    core__option__Option__ref_size v6;
    v6 = core__slice__slice_T__get__size__usize__ref_usize(v1, v2);
    v5 = core__option__more__Option_ref_T__copied__size(v6);
    v4 = core__option__Option__unwrap_or__size(v5, 0u);
    result = core__int__usize__min(v4, v3);
    return result;
}

/* runs::turn */
static element__Answer runs__turn(slice_u8 v1, usize v2, usize v3, slice_mut_u8 v4, rules__Session v5, slice_mut_u8 v6, usize v7, usize v8)
{
    element__Answer result;
    usize v9;
    usize v10;
    const uint8_t *v11;
    usize v12;
    const uint8_t *v13;
    slice_u8 v14;
    uint8_t *v15;
    slice_mut_u8 v16;
    uint8_t *v17;
    usize v18;
    uint8_t *v19;
    slice_mut_u8 v20;
    v9 = v2 + v3;
    v10 = v7 + v8;
    v11 = v1.at + v2;
    v12 = v9 - v2;
    v13 = v11;
    v14 = (slice_u8){ .at = v13, .length = v12 };
    v15 = v4.at;
    v16 = (slice_mut_u8){ .at = v15, .length = v4.length };
    v17 = v6.at + v7;
    v18 = v10 - v7;
    v19 = v17;
    v20 = (slice_mut_u8){ .at = v19, .length = v18 };
    result = element__execute(v14, v16, v5, v20);
    return result;
}

/* runs::run */
static rules__Session runs__run(slice_u8 v1, slice_usize v2, slice_mut_u8 v3, rules__Session v4, slice_mut_u8 v5, slice_usize v6, slice_mut_u8 v7)
{
    rules__Session result;
    rules__Session v8;
    usize v9;
    usize v10;
    usize v11;
    usize v12;
    usize v13;
    element__Answer v14;
    usize v15;
    bool v16;
    usize v17;
    usize v18;
    uint8_t *v19;
    slice_mut_u8 v20;
    uint8_t *v21;
    slice_mut_u8 v22;
    uint8_t v23;
    uint8_t *v24;
    v8 = v4;
    v9 = 0u;
    v10 = 0u;
    v11 = 0u;
    v15 = v7.length;
    for (;;) {
        v16 = v11 < v15;
        if (!v16) {
            break;
        }
        v17 = v1.length;
        v18 = v17 - v9;
        v12 = runs__fitted(v2, v11, v18);
        v17 = v5.length;
        v18 = v17 - v10;
        v13 = runs__fitted(v6, v11, v18);
        v19 = v3.at;
        v20 = (slice_mut_u8){ .at = v19, .length = v3.length };
        v21 = v5.at;
        v22 = (slice_mut_u8){ .at = v21, .length = v5.length };
        v14 = runs__turn(v1, v9, v12, v20, v8, v22, v10, v13);
        v23 = v14.f0;
        v24 = v7.at + v11;
        *v24 = v23;
        v8 = v14.f1;
        v9 = v9 + v12;
        v10 = v10 + v13;
        v11 = v11 + 1u;
    }
    result = v8;
    return result;
}

/* firmware::all_fit */
static bool firmware__all_fit(slice_usize v1, usize v2, usize v3)
{
    bool result;
    usize v4;
    slice_usize v5;
    usize v6;
    const size_t *v7;
    usize v8;
    bool v9;
    slice_usize v10;
    const size_t *v11;
    usize v12;
    bool v13;
    usize v14;
    const size_t *v15;
    usize v16;
    bool v17;
    v8 = v1.length;
    v9 = v8 < v2;
    if (v9) {
        result = false;
        return result;
    }
    v4 = v3;
    v11 = v1.at;
    v10 = (slice_usize){ .at = v11, .length = v2 };
    v5 = v10;
    v6 = 0u;
    v12 = v5.length;
    for (;;) {
        v13 = v6 < v12;
        if (!v13) {
            break;
        }
        v14 = v6 * 8u;
        v15 = v5.at + v14 / 8u;
        v7 = v15;
        v16 = (usize)*v7;
        v17 = v4 < v16;
        if (v17) {
            result = false;
            return result;
        }
        v16 = (usize)*v7;
        v4 = v4 - v16;
        v6 = v6 + 1u;
    }
    result = true;
    return result;
}

/* firmware::element_check_store */
static bool firmware__element_check_store(slice_u8 v1)
{
    bool result;
    result = store__check_store(v1);
    return result;
}

/* firmware::element_make_factory_store */
static uint8_t firmware__element_make_factory_store(slice_mut_u8 v1)
{
    uint8_t result;
    core__result__Result__unit__factory__WrongSize v2;
    uint8_t *v3;
    slice_mut_u8 v4;
    uint8_t v5;
    v3 = v1.at;
    v4 = (slice_mut_u8){ .at = v3, .length = v1.length };
    v2 = factory__make_factory_store(v4);
    switch (v2.tag) {
    case 0u:
        v5 = 0u;
        break;
    case 1u:
    default:
        v5 = 2u;
        break;
    }
    result = v5;
    return result;
}

/* firmware::fit */
static bool firmware__fit(slice_usize v1, usize v2, slice_usize v3, usize v4, usize v5)
{
    bool result;
    bool v6;
    v6 = firmware__all_fit(v1, v5, v2);
    if (v6) {
        v6 = firmware__all_fit(v3, v5, v4);
    }
    result = v6;
    return result;
}

/* firmware::SessionFromHostSession::from */
static rules__Session firmware__SessionFromHostSession__from(element_session v1)
{
    rules__Session result;
    bool v2;
    v2 = v1.opened != 0u;
    result = (rules__Session){ .f0 = v2, .f1 = v1.lcsg, .f2 = v1.lcsa, .f3 = v1.error };
    return result;
}

/* firmware::opened_byte */
static uint8_t firmware__opened_byte(uint8_t v1, bool v2)
{
    uint8_t result;
    bool v3;
    uint8_t v4;
    v3 = v2;
    if (v3) {
        v4 = core__int__u8__max(v1, 1u);
    } else {
        v4 = 0u;
    }
    result = v4;
    return result;
}

/* firmware::bytes_of */
static element_session firmware__bytes_of(element_session v1, rules__Session v2)
{
    element_session result;
    uint8_t v3;
    v3 = firmware__opened_byte(v1.opened, v2.f0);
    result = (element_session){ .opened = v3, .lcsg = v2.f1, .lcsa = v2.f2, .error = v2.f3 };
    return result;
}

/* firmware::element_execute */
static uint8_t firmware__element_execute(slice_u8 v1, slice_mut_u8 v2, element_session *v3, slice_mut_u8 v4)
{
    uint8_t result;
    element_session v5;
    element__Answer v6;
    uint8_t *v7;
    slice_mut_u8 v8;
    rules__Session v9;
    uint8_t *v10;
    slice_mut_u8 v11;
    element_session v12;
    rules__Session v13;
    v5 = *v3;
    v7 = v2.at;
    v8 = (slice_mut_u8){ .at = v7, .length = v2.length };
    v9 = core__convert__AnyInto__into__firmware__HostSession__rules__Session(v5);
    v10 = v4.at;
    v11 = (slice_mut_u8){ .at = v10, .length = v4.length };
    v6 = element__execute(v1, v8, v9, v11);
    v13 = v6.f1;
    v12 = firmware__bytes_of(v5, v13);
    *v3 = v12;
    result = v6.f0;
    return result;
}

/* firmware::element_fresh_session */
static element_session firmware__element_fresh_session(void)
{
    element_session result;
    element_session v1;
    rules__Session v2;
    v1 = (element_session){ .opened = 0u, .lcsg = 0u, .lcsa = 0u, .error = 0u };
    v2 = factory__fresh_session();
    result = firmware__bytes_of(v1, v2);
    return result;
}

/* firmware::element_run */
static uint8_t firmware__element_run(slice_u8 v1, slice_usize v2, slice_mut_u8 v3, element_session *v4, slice_mut_u8 v5, slice_usize v6, slice_mut_u8 v7)
{
    uint8_t result;
    element_session v8;
    rules__Session v9;
    bool v10;
    usize v11;
    usize v12;
    usize v13;
    bool v14;
    uint8_t *v15;
    slice_mut_u8 v16;
    rules__Session v17;
    uint8_t *v18;
    slice_mut_u8 v19;
    uint8_t *v20;
    slice_mut_u8 v21;
    element_session v22;
    v8 = *v4;
    v11 = v1.length;
    v12 = v5.length;
    v13 = v7.length;
    v10 = firmware__fit(v2, v11, v6, v12, v13);
    v14 = !v10;
    if (v14) {
        result = 2u;
        return result;
    }
    v15 = v3.at;
    v16 = (slice_mut_u8){ .at = v15, .length = v3.length };
    v17 = core__convert__AnyInto__into__firmware__HostSession__rules__Session(v8);
    v18 = v5.at;
    v19 = (slice_mut_u8){ .at = v18, .length = v5.length };
    v20 = v7.at;
    v21 = (slice_mut_u8){ .at = v20, .length = v7.length };
    v9 = runs__run(v1, v2, v16, v17, v19, v6, v21);
    v22 = firmware__bytes_of(v8, v9);
    *v4 = v22;
    result = 0u;
    return result;
}

/* firmware::element_execute for C */
uint8_t element_execute(const uint8_t *command, size_t command_len, uint8_t *store, size_t store_len, element_session *session, uint8_t *room, size_t room_len)
{
    size_t nothing = 0; /* lent in place of NULL */
    return firmware__element_execute((slice_u8){ .at = command != NULL ? command : (const uint8_t *)&nothing, .length = command_len },
        (slice_mut_u8){ .at = store != NULL ? store : (uint8_t *)&nothing, .length = store_len },
        session,
        (slice_mut_u8){ .at = room != NULL ? room : (uint8_t *)&nothing, .length = room_len });
}

/* firmware::element_run for C */
uint8_t element_run(const uint8_t *commands, size_t commands_len, const size_t *sizes, size_t sizes_count, uint8_t *store, size_t store_len, element_session *session, uint8_t *rooms, size_t rooms_len, const size_t *spaces, size_t spaces_count, uint8_t *outcomes, size_t outcomes_count)
{
    size_t nothing = 0; /* lent in place of NULL */
    return firmware__element_run((slice_u8){ .at = commands != NULL ? commands : (const uint8_t *)&nothing, .length = commands_len },
        (slice_usize){ .at = sizes != NULL ? sizes : (const size_t *)&nothing, .length = sizes_count },
        (slice_mut_u8){ .at = store != NULL ? store : (uint8_t *)&nothing, .length = store_len },
        session,
        (slice_mut_u8){ .at = rooms != NULL ? rooms : (uint8_t *)&nothing, .length = rooms_len },
        (slice_usize){ .at = spaces != NULL ? spaces : (const size_t *)&nothing, .length = spaces_count },
        (slice_mut_u8){ .at = outcomes != NULL ? outcomes : (uint8_t *)&nothing, .length = outcomes_count });
}

/* firmware::element_check_store for C */
bool element_check_store(const uint8_t *store, size_t store_len)
{
    size_t nothing = 0; /* lent in place of NULL */
    return firmware__element_check_store((slice_u8){ .at = store != NULL ? store : (const uint8_t *)&nothing, .length = store_len });
}

/* firmware::element_make_factory_store for C */
uint8_t element_make_factory_store(uint8_t *store, size_t store_len)
{
    size_t nothing = 0; /* lent in place of NULL */
    return firmware__element_make_factory_store((slice_mut_u8){ .at = store != NULL ? store : (uint8_t *)&nothing, .length = store_len });
}

/* firmware::element_fresh_session for C */
element_session element_fresh_session(void)
{
    return firmware__element_fresh_session();
}
