#include "Vencoder.h"
#include "verilated.h"
#include "verilated_vcd_c.h"
int main(int argc, char **argv) {
    VerilatedContext context;
    context.traceEverOn(true);
    Vencoder top{&context};
    VerilatedVcdC dump;
    top.trace(&dump, 9);
    dump.open("encoder_verilator.vcd");
    for (int k = 0; k < 34; k++) { top.clk = k & 1; top.eval(); dump.dump(context.time()); context.timeInc(25); }
    dump.close();
}
