/* The header on its own, before any other and twice: built as C and as C++, and linked. */
#include "aaru.h"
#include "aaru.h"

int main(void)
{
    uint64_t sectors, place;
    int64_t lowest;

    return aaru_sector_count(NULL, 0, &sectors, &lowest, &place) == 1 ? 0 : 1;
}
