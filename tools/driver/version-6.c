/* What a driver that was compiled with version 6's header asks of the archive for the page: how many rows it filled, where a later one
 * gives a house number. It must not link with a later archive (tools/driver.sh). */
struct row {
    unsigned kept, connection, session, event, result, played;
};
unsigned long splicer_6_ended(const unsigned long *ended, unsigned long words, struct row *page, unsigned long rows);

int main(void) {
    static unsigned long ended[81];
    static struct row page[16];
    return splicer_6_ended(ended, 81, page, 16) == 16 ? 0 : 1;
}
