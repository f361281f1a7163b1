#include "payouts.h"

#include <fcntl.h>
#include <stdio.h>
#include <string.h>
#include <unistd.h>

int payout_fill(payout *p, int64_t number) {
    memset(p, 0, sizeof *p);
    p->number = number;
    p->type = (uint8_t)(RC_SCHNORR + number % 3);
    p->message_length = (size_t)snprintf((char *)p->message, sizeof p->message, "payout %lld: %lld.00 to account %lld", (long long)number,
                                         (long long)(number % 97), (long long)(number % 13));
    if (p->type == RC_TAPROOT_ROOT) p->root_length = sizeof p->root;
    return p->root_length == 0 || hash_tagged(p->root, "RoundCabinet/payout root", p->message, p->message_length);
}

span payout_message(const payout *p) { return (span){p->message, p->message_length}; }

span payout_root(const payout *p) { return (span){p->root, p->root_length}; }

int file_write(const char *name, const void *from, size_t length) {
    const int fd = open(name, O_WRONLY | O_CREAT | O_TRUNC, 0600);
    if (fd < 0) return 0;
    const int good = write(fd, from, length) == (ssize_t)length;
    return close(fd) == 0 && good;
}

int file_read(const char *name, void *to, size_t length) {
    const int fd = open(name, O_RDONLY);
    if (fd < 0) return 0;
    const int good = read(fd, to, length) == (ssize_t)length;
    close(fd);
    return good;
}
