/* A program that does nothing: a linked program's size less this one's is what
 * was linked into it. */
int main(void)
{
    return 0;
}
