// wave KEY=VALUE ..: the bench of examples/rtl (bench.cpp, with its words), which writes the pins of its L1s as a wave
// to the file WAVE of the environment. Compile it with -DWAVE_FST where Verilator was asked for an FST.
#include "Vtop.h"
#ifdef WAVE_FST
#include "verilated_fst_c.h"
using Wave = VerilatedFstC;
#else
#include "verilated_vcd_c.h"
using Wave = VerilatedVcdC;
#endif
#include <cstdlib>

// The design, whose pins are written after each evaluation.
class WatchedTop : public Vtop {
  public:
    explicit WatchedTop(VerilatedContext *context) : Vtop(context), context_(context) {
        const char *depth = std::getenv("DEPTH"), *file = std::getenv("WAVE");
        context->traceEverOn(true);
        trace(&wave_, depth ? std::atoi(depth) : 1);
        wave_.open(file ? file : "wave.vcd");
    }
    ~WatchedTop() { wave_.close(); }
    void eval() {
        Vtop::eval();
        wave_.dump(context_->time());
        context_->timeInc(1);
    }

  private:
    VerilatedContext *context_;
    Wave wave_;
};
#define Vtop WatchedTop
#include "../rtl/bench.cpp"
