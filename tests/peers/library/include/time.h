/* Mbed TLS includes time.h for types that the self tests do not use. */
#ifndef TIME_H
#define TIME_H
typedef long time_t;

struct tm {
    int tm_sec, tm_min, tm_hour, tm_mday, tm_mon, tm_year, tm_wday, tm_yday, tm_isdst;
};

struct tm *gmtime(const time_t *time);
#endif
