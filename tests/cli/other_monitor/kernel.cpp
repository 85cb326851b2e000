template <unsigned number> struct Entry {
    static void open(unsigned address) { asm volatile("csrw %0, %1" : : "i"(0x3b0 + number), "r"(address >> 2)); }
};

struct Protection {
    virtual void set() const { Entry<0>::open(0x80010000); Entry<1>::open(0xfffffffc); asm volatile("csrw pmpcfg0, %0" : : "r"(0x0f08)); }
};

extern "C" void protect() { Protection().set(); }
