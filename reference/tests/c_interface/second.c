/* A second unit with fenalukki.h, which includes it twice, and uses its names
 * where only a constant may stand. */
#include "fenalukki.h"
#include "fenalukki.h"

#if FENALUKKI_VERSION_NUMBER < 50000 || FENALUKKI_REFUSED_SAVED != FENALUKKI_REFUSALS
#error "names of fenalukki.h do not agree"
#endif

#if FENALUKKI_TOTALS_MAX != 0xffffffffffffffff || FENALUKKI_SAVED_BYTES != 4 * FENALUKKI_TOTALS
#error "names of totals do not agree"
#endif

#ifdef FENALUKKI_REFUSED_EQUAL_ENDS
#error "fenalukki.h has a name for 13, which is not given"
#endif

#ifdef FENALUKKI_FILE_VERSION
#error "fenalukki.h has a name for the one version of a file, which has two"
#endif

#if FENALUKKI_FILE_VERSION_DEGREE_4 != 1 || FENALUKKI_FILE_VERSION_DEGREE_6 != 2
#error "names of the versions of a file do not agree"
#endif

enum { MARKS = FENALUKKI_MARKS_BYTES };

static const int64_t most_field = FENALUKKI_WEIGHT_MAX * FENALUKKI_BOUNDS_ONE;

int second_unit(uint64_t number);

/* 1 to 12 or 14 to 18 for a refusal number, 20 for any other number. */
int second_unit(uint64_t number)
{
    static uint8_t marks[MARKS];

    switch (fenalukki_refusal(number)) {
    case FENALUKKI_REFUSED_LENGTH:
    case FENALUKKI_REFUSED_FILE_MARK:
    case FENALUKKI_REFUSED_VERSION:
    case FENALUKKI_REFUSED_DISTANCE:
    case FENALUKKI_REFUSED_ISO:
    case FENALUKKI_REFUSED_KIND:
    case FENALUKKI_REFUSED_ZERO_BYTES:
    case FENALUKKI_REFUSED_POINT:
    case FENALUKKI_REFUSED_TOO_FEW_HELD:
    case FENALUKKI_REFUSED_TOO_MANY_HELD:
    case FENALUKKI_REFUSED_NOT_ONE_HELD:
    case FENALUKKI_REFUSED_COORDINATE:
    case FENALUKKI_REFUSED_ROOM:
    case FENALUKKI_REFUSED_FLOAT:
    case FENALUKKI_REFUSED_NUMBERS:
    case FENALUKKI_REFUSED_WRITE_ROOM:
    case FENALUKKI_REFUSED_SAVED:
        return fenalukki_refusal(number);
    default:
        return most_field >> 32 == FENALUKKI_WEIGHT_MAX ? 20 + marks[0] : 0;
    }
}
