/* A plasma over the whole screen: an effect that is drawn pixel by pixel, so that a frame takes long. plasma.wasm is
   made of it by clang 14:

       clang --target=wasm32 -O2 -nostdlib -mno-bulk-memory -Wl,--no-entry -Wl,--import-memory \
           -Wl,--initial-memory=65536 -Wl,--max-memory=65536 -Wl,-zstack-size=14752 -Wl,--global-base=6560 \
           -Wl,--strip-all -o plasma.wasm plasma.c */
typedef unsigned char u8; typedef unsigned int u32; typedef int i32;
#define FRAMEBUFFER ((u8 *)0xa0)
#define GAMEPAD (*(const u8 *)0x16)
static u8 wave[256];
static u32 t;
__attribute__((export_name("start"))) void start(void) {
    for (i32 i = 0; i < 256; i++) { i32 x = i < 128 ? i : 255 - i; wave[i] = (u8)(x * (127 - (x >> 1)) >> 6); }
}
__attribute__((export_name("update"))) void update(void) {
    t += GAMEPAD & 1 ? 3 : 1;
    for (u32 y = 0; y < 160; y++) {
        u32 row = wave[(y * 2 + t) & 255] + wave[(y + 3 * t) & 255];
        for (u32 x = 0; x < 160; x += 4) {
            u8 out = 0;
            for (u32 k = 0; k < 4; k++) {
                u32 v = row + wave[(x + k + t * 2) & 255] + wave[(x + k + y + t) & 255];
                out |= (u8)((v >> 6 & 3) << (2 * k));
            }
            FRAMEBUFFER[y * 40 + (x >> 2)] = out;
        }
    }
}
