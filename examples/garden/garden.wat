;; A robot walks through a garden, and a waltz is played. Left and right move it, button 1 makes it hop and
;; sound. How often it has hopped stands at address 0x2118 (8472), in four bytes.
;; Built by `wat2wasm garden.wat -o cart.wasm` (wabt).
(module
  (import "env" "memory" (memory 1))
  (import "env" "blit" (func $blit (param i32 i32 i32 i32 i32 i32)))
  (import "env" "oval" (func $oval (param i32 i32 i32 i32)))
  (import "env" "rect" (func $rect (param i32 i32 i32 i32)))
  (import "env" "hline" (func $hline (param i32 i32 i32)))
  (import "env" "text" (func $text (param i32 i32 i32)))
  (import "env" "tone" (func $tone (param i32 i32 i32 i32)))
  (import "env" "tracef" (func $tracef (param i32 i32)))

  (global $frames (mut i32) (i32.const 0))
  (global $x (mut i32) (i32.const 8))
  (global $hop (mut i32) (i32.const 0))
  (global $flip (mut i32) (i32.const 0))

  ;; The robot, 16 by 16, one bit a pixel.
  (data (i32.const 0x2000)
    "\0f\f0" ;; ....########....
    "\1f\f8" ;; ...##########...
    "\19\98" ;; ...##..##..##...
    "\1f\f8" ;; ...##########...
    "\1c\38" ;; ...###....###...
    "\0f\f0" ;; ....########....
    "\03\c0" ;; ......####......
    "\3f\f8" ;; ..###########...
    "\6f\fc" ;; .##.##########..
    "\6f\f6" ;; .##.########.##.
    "\0f\f6" ;; ....########.##.
    "\0f\f0" ;; ....########....
    "\0e\70" ;; ....###..###....
    "\0e\70" ;; ....###..###....
    "\1e\78" ;; ...####..####...
    "\1e\78") ;; ...####..####...
  ;; A flower, 8 by 8, two bits a pixel: 0 is transparent.
  (data (i32.const 0x2020)
    "\05\50" ;; ..1111..
    "\15\54" ;; .111111.
    "\16\94" ;; .112211.
    "\16\94" ;; .112211.
    "\05\50" ;; ..1111..
    "\00\c0" ;; ....3...
    "\03\c0" ;; ...33...
    "\00\c0") ;; ....3...
  (data (i32.const 0x2040) "A ROBOT'S GARDEN\00")
  (data (i32.const 0x2060) "frame %d: the robot is at %d\00")
  ;; The waltz: four bars of six eighth notes in hertz, 16 bits each. A 0 holds the note before it.
  (data (i32.const 0x2080) ;; the tune
    "\93\02\00\00\10\03\00\00\93\02\4b\02" ;; E5 - G5 - E5 D5
    "\0b\02\00\00\93\02\00\00\0b\02\ee\01" ;; C5 - E5 - C5 B4
    "\b8\01\00\00\0b\02\00\00\ba\02\93\02" ;; A4 - C5 - F5 E5
    "\4b\02\00\00\00\00\ee\01\4b\02\00\00") ;; D5 - - B4 D5 -
  (data (i32.const 0x20b0) ;; the bass
    "\83\00\00\00\4a\01\00\00\88\01\00\00" ;; C3 - E4 - G4 -
    "\6e\00\00\00\06\01\00\00\4a\01\00\00" ;; A2 - C4 - E4 -
    "\af\00\00\00\06\01\00\00\5d\01\00\00" ;; F3 - C4 - F4 -
    "\c4\00\00\00\f7\00\00\00\26\01\00\00") ;; G3 - B3 - D4 -
  (data (i32.const 0x20e0) ;; the brushes, on the second and third beat
    "\00\00\00\00\40\1f\00\00\40\1f\00\00"
    "\00\00\00\00\40\1f\00\00\40\1f\00\00"
    "\00\00\00\00\40\1f\00\00\40\1f\00\00"
    "\00\00\00\00\40\1f\00\00\40\1f\40\1f")
  ;; 0x2110 has the numbers of the line that is traced.

  (func $colors (param $colors i32)
    i32.const 0x14
    local.get $colors
    i32.store16)

  ;; Whether one of these buttons of gamepad 1 is held.
  (func $held (param $buttons i32) (result i32)
    i32.const 0x16
    i32.load8_u
    local.get $buttons
    i32.and)

  (func $step (param $dx i32)
    (local $x i32)
    global.get $x
    local.get $dx
    i32.add
    local.tee $x
    i32.const 0
    i32.ge_s
    if
      local.get $x
      i32.const 144
      i32.le_s
      if
        local.get $x
        global.set $x
      end
    end
    local.get $dx
    i32.const 0
    i32.lt_s
    i32.const 1
    i32.shl
    global.set $flip)

  (func $move
    i32.const 16
    call $held
    if
      i32.const -1
      call $step
    end
    i32.const 32
    call $held
    if
      i32.const 1
      call $step
    end)

  ;; A hop is 24 frames long, is counted, and begins with a tone that slides up.
  (func $jump
    global.get $hop
    if
      global.get $hop
      i32.const 1
      i32.sub
      global.set $hop
    else
      i32.const 1
      call $held
      if
        i32.const 24
        global.set $hop
        i32.const 0x2118
        i32.const 0x2118
        i32.load
        i32.const 1
        i32.add
        i32.store
        i32.const 0x02bc0118 ;; from 280 to 700 hertz
        i32.const 0x00000810 ;; 8 frames of release, 16 of sustain
        i32.const 40
        i32.const 0
        call $tone
      end
    end)

  ;; The note of a part that begins now, if one does.
  (func $part (param $notes i32) (param $duration i32) (param $volume i32) (param $flags i32)
    (local $note i32)
    local.get $notes
    global.get $frames
    i32.const 10
    i32.div_u
    i32.const 24
    i32.rem_u
    i32.const 1
    i32.shl
    i32.add
    i32.load16_u
    local.tee $note
    if
      local.get $note
      local.get $duration
      local.get $volume
      local.get $flags
      call $tone
    end)

  ;; An eighth note is ten frames long.
  (func $music
    global.get $frames
    i32.const 10
    i32.rem_u
    i32.eqz
    if
      i32.const 0x2080
      i32.const 0x00000e06 ;; 14 frames of release, 6 of sustain
      i32.const 26
      i32.const 5 ;; the second pulse, high for a quarter
      call $part
      i32.const 0x20b0
      i32.const 0x00001004 ;; 16 frames of release, 4 of sustain
      i32.const 45
      i32.const 2 ;; the triangle
      call $part
      i32.const 0x20e0
      i32.const 0x00000500 ;; 5 frames of release
      i32.const 7
      i32.const 35 ;; the noise, on the right
      call $part
    end)

  (func $flowers
    (local $i i32)
    i32.const 0x4320
    call $colors
    loop $next
      i32.const 0x2020
      local.get $i
      i32.const 20
      i32.mul
      i32.const 6
      i32.add
      i32.const 130
      local.get $i
      i32.const 3
      i32.and
      i32.sub
      i32.const 8
      i32.const 8
      i32.const 1
      call $blit
      local.get $i
      i32.const 1
      i32.add
      local.tee $i
      i32.const 8
      i32.lt_u
      br_if $next
    end)

  (func $scene
    i32.const 0x32
    call $colors
    i32.const 112
    i32.const 18
    i32.const 32
    i32.const 32
    call $oval
    i32.const 0x43
    call $colors
    i32.const -30
    i32.const 84
    i32.const 130
    i32.const 120
    call $oval
    i32.const 70
    i32.const 98
    i32.const 140
    i32.const 110
    call $oval
    i32.const 0x44
    call $colors
    i32.const 0
    i32.const 138
    i32.const 160
    i32.const 22
    call $rect
    i32.const 0x03
    call $colors
    i32.const 0
    i32.const 141
    i32.const 160
    call $hline
    i32.const 0x04
    call $colors
    i32.const 0x2040
    i32.const 8
    i32.const 6
    call $text)

  ;; How high the robot is: up for 12 frames of a hop and down for 12.
  (func $height (result i32)
    i32.const 24
    global.get $hop
    i32.sub
    global.get $hop
    global.get $hop
    i32.const 12
    i32.gt_s
    select)

  (func $robot
    i32.const 0x40
    call $colors
    i32.const 0x2000
    global.get $x
    i32.const 122
    call $height
    i32.sub
    i32.const 16
    i32.const 16
    global.get $flip
    call $blit)

  ;; A line of trace each second.
  (func $tell
    global.get $frames
    i32.const 60
    i32.rem_u
    i32.eqz
    if
      i32.const 0x2110
      global.get $frames
      i32.store
      i32.const 0x2114
      global.get $x
      i32.store
      i32.const 0x2060
      i32.const 0x2110
      call $tracef
    end)

  ;; Sky, sun, leaves, earth.
  (func (export "start")
    i32.const 0x04
    i32.const 0xdcefff
    i32.store
    i32.const 0x08
    i32.const 0xf4a259
    i32.store
    i32.const 0x0c
    i32.const 0x5b8e7d
    i32.store
    i32.const 0x10
    i32.const 0x2d3142
    i32.store)

  (func (export "update")
    call $move
    call $jump
    call $music
    call $scene
    call $flowers
    call $robot
    call $tell
    global.get $frames
    i32.const 1
    i32.add
    global.set $frames))
