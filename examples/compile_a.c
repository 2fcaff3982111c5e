/* Compiles a circuit of three wires on two qubits and prints the bytes of the dynamic circuit.
 *
 *     tests/build thaksipho
 *     cc -Iinclude examples/compile_a.c target/staticlib/libthaksipho.a -o compile_a
 */
#include <stdio.h>
#include <thaksipho.h>

/* A, of document 01: three wires are reset, a gate on 0 and 1, one on 1 and 2, three are measured. */
static const uint8_t circuit[] = {0x01, 3, 0x10, 0, 0x10, 1, 0x10, 2, 0x40, 0, 1, 0x40,
                                  1, 2, 0x11, 0, 0, 0x11, 1, 1, 0x11, 2, 2};

/* Wire 0 lends its qubit to wire 2. */
static const uint8_t pairs[] = {0x60, 0, 2};

int main(void)
{
    uint8_t out[sizeof circuit + 1];
    uint64_t word = thaksipho_compile(circuit, sizeof circuit, pairs, sizeof pairs, out, sizeof out);
    if (THAKSIPHO_REFUSED(word)) {
        printf("refused %u at %u\n", THAKSIPHO_NUMBER(word), (unsigned)THAKSIPHO_PLACE(word));
        return 1;
    }
    for (size_t at = 0; at < word; at++)
        printf(at == 0 ? "%02X" : " %02X", out[at]);
    printf("\n");
    return 0;
}
