// Timestamps by Howard Hinnant's date library, for dates of the years that its `year` holds, -32767 to 32767.
#include <chrono>
#include <cstdint>
#include <date/date.h>

namespace {

// Writes year, month, day, hour, minute, second and fraction of a count.
template <class Unit> void decode(std::int64_t count, std::int64_t *fields)
{
    const date::sys_time<Unit> instant{Unit{count}};
    const auto day = date::floor<date::days>(instant);
    const date::year_month_day date{day};
    const date::hh_mm_ss<Unit> time{instant - day};
    fields[0] = int{date.year()};
    fields[1] = unsigned{date.month()};
    fields[2] = unsigned{date.day()};
    fields[3] = time.hours().count();
    fields[4] = time.minutes().count();
    fields[5] = time.seconds().count();
    fields[6] = time.subseconds().count();
}

date::year_month_day date_of(const std::int64_t *fields)
{
    return {date::year{static_cast<int>(fields[0])}, date::month{static_cast<unsigned>(fields[1])},
            date::day{static_cast<unsigned>(fields[2])}};
}

// The count of fields, which are not looked at.
template <class Unit> std::int64_t encode(const std::int64_t *fields)
{
    const date::sys_time<Unit> instant = date::sys_days{date_of(fields)} + std::chrono::hours{fields[3]}
        + std::chrono::minutes{fields[4]} + std::chrono::seconds{fields[5]} + Unit{fields[6]};
    return instant.time_since_epoch().count();
}

// Writes the count of fields where they form a date and time; answers whether they do.
template <class Unit> bool encode_checked(const std::int64_t *fields, std::int64_t *count)
{
    const auto below = [](std::int64_t field, std::int64_t bound) { return 0 <= field && field < bound; };
    if (!date_of(fields).ok() || !below(fields[3], 24) || !below(fields[4], 60) || !below(fields[5], 60)
        || !below(fields[6], Unit::period::den))
        return false;
    *count = encode<Unit>(fields);
    return true;
}

} // namespace

#define ENTRIES(NAME, UNIT)                                                                                           \
    extern "C" void hinnant_decode_##NAME(std::int64_t count, std::int64_t *fields) { decode<UNIT>(count, fields); } \
    extern "C" std::int64_t hinnant_encode_##NAME(const std::int64_t *fields) { return encode<UNIT>(fields); }       \
    extern "C" bool hinnant_encode_checked_##NAME(const std::int64_t *fields, std::int64_t *count)                   \
    {                                                                                                                 \
        return encode_checked<UNIT>(fields, count);                                                                   \
    }

ENTRIES(millis, std::chrono::milliseconds)
ENTRIES(micros, std::chrono::microseconds)
ENTRIES(nanos, std::chrono::nanoseconds)
