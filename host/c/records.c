/* Makes records with the function of docs/FORMAT.md, which tools/hosts takes out of that page into record.h: reads lines of ten numbers (the
 * time, channels 0 to 3, the flags, channels 4 to 7) and writes 40 bytes for each.
 */
#include <inttypes.h>
#include <stdint.h>
#include <stdio.h>

#include "record.h"

int main(void)
{
    uint32_t time;
    unsigned present;
    int32_t steady[4], event[4];
    uint8_t record[40];
    while (scanf("%" SCNu32 "%" SCNd32 "%" SCNd32 "%" SCNd32 "%" SCNd32 "%u%" SCNd32 "%" SCNd32 "%" SCNd32 "%" SCNd32, &time, &steady[0],
                 &steady[1], &steady[2], &steady[3], &present, &event[0], &event[1], &event[2], &event[3]) == 10) {
        make_record(record, time, steady, present, event);
        fwrite(record, 1, sizeof record, stdout);
    }
    return 0;
}
