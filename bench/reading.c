/* What a C program needs before it does anything: it reads standard input to its end. */
#include <unistd.h>

int main(void) {
    char buffer[4096];
    while (read(0, buffer, sizeof buffer) > 0) {
    }
    return 0;
}
