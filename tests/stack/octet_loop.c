/*
 * The check octet by a loop over the octets, one at a time: what tools/measure-targets counts the
 * library's beside. The kit's clang compiles it with the flags of the library's target; it has no
 * headers, and a length has 64 bits as the library's has.
 */
unsigned octet_loop(const unsigned char *octets, unsigned long long n);

unsigned octet_loop(const unsigned char *octets, unsigned long long n)
{
    unsigned char folded = 0;
    unsigned long long at = 0;
    while (at < n) {
        folded ^= octets[at];
        at++;
    }
    return (unsigned char)(255 - folded);
}
