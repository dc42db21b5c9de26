//! The help texts.

pub const MORE: &str = "'loomfinch --help' says more.";

pub const ALL: &str = "\
loomfinch says why a time did not arrive as it was sent.

A node of a rig, as a console or a drive, receives times and positions from the
others as process data over Ethernet POWERLINK. Its object dictionary says which
bytes of a payload go to which object. You describe that dictionary in a text
file, the rig file, and loomfinch tells you whether each channel writes what it
maps, and what given payloads change.

  loomfinch check RIG                 is something wrong with the mappings?
  loomfinch consume RIG --from NODE --version V HEX...
                                      what do these payloads change?
  loomfinch replay RIG CAPTURE        what did a network capture change?
  loomfinch pair DRIVE.rig CONSOLE.rig
                                      does the console take what a drive sends?

  loomfinch COMMAND --help            more on a command, with an example
  loomfinch --version                 the version of this program

A rig file looks like this (docs/RIG.md has all of it; 'edition 2' as a line
before the first object makes the rig keep the counts of its mappings):

  1400h Record \"From the winch\"
    1 Unsigned8 = 5                   # the node that sends
    2 Unsigned8 = 10h                 # the mapping version it must have
  1600h Array \"What the winch sends\"
    1 6000h/0 at 0 length 2           # bytes 0 and 1 go to 6000h
  6000h Variable Unsigned16 \"Ramp time\" = 2500 ms

Exit status: 0 nothing is wrong, 1 something is, 2 the command or a file could
not be understood, or the output not be written, 3 nothing was looked at.
";

pub const CHECK: &str = "\
loomfinch check RIG [--explain] [--json] [--strict] [--comma]

Checks every channel of a rig: is each mapped field written whole, by every
payload that the channel accepts? Each channel has a line: who sends, how many
elements its mapping has, and 'pass' or what is wrong, in words. In a rig of
edition 2 only elements in use are checked, and the line counts them: '2 of 3
elements in use'. A channel whose count is 0 is off, which is no pass.

  --explain   draws the payload of each channel: which bytes go to which
              object, where fields overlap, what is lost, what is not in use
  --json      writes one JSON object for programs (docs/TOOL.md has its shape)
  --comma     writes decimals with a comma, as in the other commands
  --strict    lets notes count: they are no faults, as two channels that write
              one object, and change the exit status only so

Example:

  $ loomfinch check rigs/ramp.rig
  channel 0, from node 5, 2 elements: FAULT: element 1 maps 4 bytes onto
  6000h/0 \"Ramp time\", an Unsigned16 of 2 bytes: the last 2 bytes would be lost
  note: channel 0: elements 1 and 2 share bytes 2 to 3 of the payload

So a ramp of 90000 ms would be stored as 24464 ms.

Exit status: 0 all channels pass, 1 some channel has a fault or, with --strict,
there is a note, 2 the command or the rig file could not be understood.
";

pub const CONSUME: &str = "\
loomfinch consume RIG --from NODE --version V HEX... [options]

Gives payloads to the rig, one after another, and says what each of them
changes: old value and new value, what was refused and why, and the error bits
in 1C80h and 1C81h. Of a text that is no UTF-8 it names the byte of the field,
counted from 0, at which none goes on. In a rig of edition 2 it says which
elements are not in use, and which channel is off.

  HEX           a payload as hexadecimal digits: C40910270000, or with spaces
                in quotes: 'C4 09 10 27 00 00'; each HEX is one payload
  --from NODE   the node that sends: 1 to 239, or 240, the managing node
  --version V   the mapping version that comes with the payloads, as 1.2 or
                12h; 0 is none
  --not-ready   the payloads come without the RD flag
  --times       show every Unsigned16 and Unsigned32 as a time in ms and s,
                also where the rig file has no 'ms' beside it
  --comma       write decimals with a comma: 2,500 s

Numbers are decimal (16) or hexadecimal (10h, 0x10).

Example:

  $ loomfinch consume rigs/ramp.rig --from 5 --version 12h 905F01000000
  payload 1: 6 bytes from node 5, version 1.2 (12h)
    6000h/0 \"Ramp time\": 0 ms = 0.000 s -> 24464 ms = 24.464 s
      CUT: element 1's field is 90 5F 01 00, 90000 ms = 90.000 s; the last 2
      bytes, 01 00, are lost
    6200h/3 \"Move times\": 0 ms = 0.000 s -> 1 ms = 0.001 s

Exit status: 0 nothing was refused, stopped, cut or passed over, 1 something
was, 2 the command or the rig file could not be understood.
";

pub const REPLAY: &str = "\
loomfinch replay RIG CAPTURE [options]

Reads a network capture (pcap or pcapng, of an Ethernet or cooked by Linux),
gives the payloads of its POWERLINK frames to the rig in their order, and says
for each frame what it changed, what was refused and why, and in a rig of
edition 2 which elements are not in use. A table by sender follows: how many
frames had each kind of trouble, and the first of each, a CUT before all others.
All frames are consumed and counted, told or not.
CAPTURE may be - for the standard input: each packet is told as it comes, and an
interrupt (Ctrl-C) ends the capture and writes the table:

  tcpdump -i eth0 -U -w - | loomfinch replay RIG -

  --node N      the console's own node: requests of the managing node (PReq)
                to other nodes are left out, and node N's own responses.
                Without it, PReqs are left out where they go to several nodes,
                and where the capture comes through a pipe
  --quiet       write the table alone
  --object 6000h/0
                tell only what concerns this object; may be given again
  --from NODE   tell only frames of this sender
  --changes     tell only values that changed
  --faults      tell only frames in which something went wrong
  --clock +01:00
                show the time of day, on a clock so far ahead of UTC
  --between 20:14:00..20:15:00
                tell only frames of this part of the day, on that clock
  --json        write a line of JSON for each frame, and one for the table, with
                the byte of a bad text, and the bytes that a short value needs
                and had
  --times       show every Unsigned16 and Unsigned32 as a time in ms and s,
                also where the rig file has no 'ms' beside it
  --comma       write decimals with a comma: 2,500 s

Example:

  $ loomfinch replay rigs/mended.rig rigs/rehearsal.pcap --quiet
  sender  frames  not ready  fields written  short  version  damaged
       5       7          1               6      1        1        1
          short in No. 7: stopped at element 1 (6000h/0 \"Ramp time\"): it needs
          4 bytes of payload, and 3 came
          version in No. 8: refused: the payload has version 2.2 (22h),
          channel 0 expects 1.0 to 1.F
          damaged in No. 9: not consumed: its size field says 100 bytes of
          payload, and the frame has 36
       9       1          0               0      0        0        0
          no channel takes this sender
  other frames: 1 EtherType 0800h, 1 SoC

Exit status: 0 nothing was refused, stopped, cut or passed over, 1 something
was, 2 the command or a file could not be understood; a capture that is damaged
is told up to the damage. 3 nothing was looked at: the capture has no packet, is
not of an Ethernet, or has no ready payload that a channel of the rig takes, or
the channels that take them are off.
";

pub const PAIR: &str = "\
loomfinch pair DRIVE.rig CONSOLE.rig [--node N] [--times] [--comma]

Holds what a drive sends, the mapping 1A00h of its own rig file, against what
the console takes from it, field by field. A fault is a field that the console
keeps in part or at another byte, one that the drive does not send whole or not
at all, and one that no payload reaches. What the console does not take is a
note, and so is an element that is not in use, of a rig of edition 2; a mapping
that is off is a fault.

  --node N      the drive's node; without it, the only node that the console
                takes payloads of
  --times       show the numbers of examples as times, also where the rig files
                have no 'ms'
  --comma       write decimals with a comma: 2,500 s

Example:

  $ loomfinch pair rigs/drive.rig rigs/ramp.rig
  node 5 \"Revolve\": 2 elements of its 1A00h against 2 of the console's
  1600h
  version: the drive sends 1.2 (12h), and the console takes 1.0 to 1.F
  FAULT: the drive's element 1 sends 4 bytes (0 to 3) of 6000h/0 \"Ramp time\",
  and the console's element 1 keeps 2 of them in 6000h/0 \"Ramp time\", an
  Unsigned16 of 2 bytes: the last 2 bytes would be lost, so 90000 ms = 90.000 s
  arrives as 24464 ms = 24.464 s
  FAULT: the drive's element 2 sends 4 bytes (4 to 7) of 6040h/1 \"Time of the
  move\", and the console's element 2 takes 4 bytes (2 to 5): they do not begin
  at the same byte

Exit status: 0 each field that the console takes arrives whole, 1 there is a
fault, 2 the command or a rig file could not be understood.
";
