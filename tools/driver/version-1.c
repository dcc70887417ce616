/* What a driver that was compiled with version 1's header asks of the archive: functions without a version in their names, over four parts
 * of the state. It must not link with a later archive (tools/driver.sh). */
struct reply {
    unsigned refused;
    unsigned long consumed, written;
};
struct reply splicer_fresh(const unsigned char *name, unsigned long *head, unsigned char *kept, unsigned long *waiting,
                           unsigned long *started);

int main(void) {
    static unsigned long head[7], waiting[512], started[80];
    static unsigned char name[32], kept[32];
    return (int)splicer_fresh(name, head, kept, waiting, started).refused;
}
