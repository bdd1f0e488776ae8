/* The statuses that an admin command may come back with: generic, command specific, media and path related ones. */
#include "names.h"

#include <stddef.h>

static const struct {
    uint16_t status;
    const char *name;
} names[] = {
    {0x0000, "successful completion"},
    {0x0001, "invalid command opcode"},
    {0x0002, "invalid field in command"},
    {0x0003, "command ID conflict"},
    {0x0004, "data transfer error"},
    {0x0005, "aborted due to power loss"},
    {0x0006, "internal error"},
    {0x0007, "abort requested"},
    {0x0008, "aborted, submission queue deleted"},
    {0x000B, "invalid namespace or format"},
    {0x000C, "command sequence error"},
    {0x000D, "invalid SGL segment descriptor"},
    {0x000F, "data SGL length invalid"},
    {0x0013, "PRP offset invalid"},
    {0x0015, "operation denied"},
    {0x001A, "keep alive timeout expired"},
    {0x001C, "sanitize failed"},
    {0x001D, "sanitize in progress"},
    {0x0020, "namespace is write protected"},
    {0x0021, "command interrupted"},
    {0x0022, "transient transport error"},
    {0x0023, "prohibited by lockdown"},
    {0x0024, "admin command media not ready"},
    {0x0080, "LBA out of range"},
    {0x0081, "capacity exceeded"},
    {0x0082, "namespace not ready"},
    {0x0105, "asynchronous event request limit exceeded"},
    {0x0109, "invalid log page"},
    {0x010B, "firmware activation requires a conventional reset"},
    {0x010D, "feature identifier not saveable"},
    {0x010E, "feature not changeable"},
    {0x0110, "firmware activation requires an NVM subsystem reset"},
    {0x0111, "firmware activation requires a controller level reset"},
    {0x0281, "unrecovered read error"},
    {0x0286, "access denied"},
    {0x0300, "internal path error"},
    {0x0301, "asymmetric access persistent loss"},
    {0x0302, "asymmetric access inaccessible"},
    {0x0303, "asymmetric access transition"},
    {0x0360, "controller pathing error"},
    {0x0370, "host pathing error"},
    {0x0371, "command aborted by host"},
};

const char *status_name(uint16_t status) {
    for (size_t i = 0; i < sizeof names / sizeof *names; i++)
        if (names[i].status == status)
            return names[i].name;
    return status >> 8 == 7 ? "vendor specific" : "a status without a name here";
}
