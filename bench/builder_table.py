#!/usr/bin/env python3
"""Works out the bytes of every builder's entry from a table that was written by hand.

usage: builder_table.py            writes the lines
       builder_table.py --check    compares them with crates/builder_table/stdout

How it was made. ROWS was typed in from a written description of the 74 operations, as io-uring 0.7.15
builds their entries: for each its code, what `new` takes, what its setters set, and each thing's place
in the entry. LAYOUT was typed in from the same description of the entry's 64 bytes. Neither was taken
from this repository's Rust code or its definitions, and nothing here reads them. So a word that two
readers of that description understood in different ways shows as a difference.

What the lines are. The program crates/builder_table writes the code that each builder tells, builds
the same entries with the builders and writes their bytes. Both have the values of VALUES, and nothing
else in common. First there is a line for each builder, in the table's order, with its name and its
code. Then for each builder there is a line with its name and its entry's bytes in hex for

  - everything given, on a registered file where it takes a target;
  - what `new` takes alone, on a raw descriptor, where that is another entry;
  - each case of MORE.
"""

import os
import sys

# Where each word stands: its first byte, and how many there are. The lowest byte comes first.
LAYOUT = {
    "opcode": (0, 1),
    "flags": (1, 1),
    "prio": (2, 2),
    "fd": (4, 4),
    "off": (8, 8),
    "addr": (16, 8),
    "len": (24, 4),
    "op": (28, 4),
    "user_data": (32, 8),
    "buf": (40, 2),
    "personality": (42, 2),
    "idx": (44, 4),
    "third": (48, 8),
    "fourth": (56, 8),
}
COMMAND_AT = 48
SMALL, LARGE = 64, 128

# Bits of the entry's flags.
FIXED_FILE, BUFFER_SELECT = 1, 32


class Fd(int):
    """A raw descriptor."""


class Fixed(int):
    """The index of a registered file."""


class Slot(int):
    """The index of a slot."""


ANY_SLOT = "a slot that the partner chooses"

# ---- How a value stands in its word. A word is all that stands in it, joined by or. ----

BITS = "its bits: a signed number with its sign, an unsigned one with zeros in front"
TARGET = "a descriptor or index by its bits; an index also sets FIXED_FILE in flags"
NUMBER = "a descriptor or index by its bits, and no mark"
DESCRIPTOR = "a descriptor by its bits, and an index not at all"
SUCCESSOR = "an index plus 1, and a descriptor not at all"
SLOT = "the index of a slot plus 1, or 2^32 - 1 where the partner chooses"
HIGH_HALF = "its bits, 32 places higher"
COMMAND = "its bytes, from the byte 48 on"


class Mark(int):
    """These bits, where the value is there, is true, or is an index."""


# ---- Where a thing stands that its row doesn't place. ----

PLACES = {
    "fd": ("fd", TARGET),
    "dirfd": ("fd", BITS),
    "olddirfd": ("fd", BITS),
    "ring_fd": ("fd", BITS),
    "iovec": ("addr", BITS),
    "buf": ("addr", BITS),
    "msg": ("addr", BITS),
    "timespec": ("addr", BITS),
    "pathname": ("addr", BITS),
    "oldpath": ("addr", BITS),
    "addr": ("addr", BITS),
    "name": ("addr", BITS),
    "events": ("addr", BITS),
    "len": ("len", BITS),
    "offset": ("off", BITS),
    "ioprio": ("prio", BITS),
    "rw_flags": ("op", BITS),
    "flags": ("op", BITS),
    "buf_index": ("buf", BITS),
    "buf_group": ("buf", BITS),
    "write_stream": ("idx", BITS),
    "file_index": ("idx", SLOT),
}

# ---- The table: name, code, what `new` takes, the setters, where other things stand, and words that
# are always there. A thing is NAME:TYPE, with a question mark where it is optional. A thing that its
# row places stands nowhere else. ----

ROWS = [
    # File operations.
    ("Nop", 0, "", "", [], {"fd": -1}),
    ("Readv", 1, "fd:Target iovec:u64 len:u32", "ioprio:u16 offset:u64 rw_flags:i32 buf_group:u16", [], {}),
    ("Writev", 2, "fd:Target iovec:u64 len:u32", "ioprio:u16 offset:u64 rw_flags:i32 write_stream:u8", [], {}),
    ("Fsync", 3, "fd:Target", "offset:u64 len:u32 flags:FsyncFlags", [], {}),
    ("ReadFixed", 4, "fd:Target buf:u64 len:u32 buf_index:u16", "ioprio:u16 offset:u64 rw_flags:i32", [], {}),
    ("WriteFixed", 5, "fd:Target buf:u64 len:u32 buf_index:u16",
     "ioprio:u16 offset:u64 rw_flags:i32 write_stream:u8", [], {}),
    ("PollAdd", 6, "fd:Target flags:u32", "multi:bool", [("multi", "len", Mark(1))], {}),
    ("PollRemove", 7, "user_data:u64", "", [("user_data", "addr", BITS)], {"fd": -1}),
    ("SyncFileRange", 8, "fd:Target len:u32", "offset:u64 flags:u32", [], {}),
    ("Timeout", 11, "timespec:u64", "count:u32 flags:TimeoutFlags", [("count", "off", BITS)], {"fd": -1, "len": 1}),
    ("TimeoutRemove", 12, "user_data:u64", "", [("user_data", "addr", BITS)], {"fd": -1}),
    ("TimeoutUpdate", 12, "user_data:u64 timespec:u64", "flags:TimeoutFlags",
     [("user_data", "addr", BITS), ("timespec", "off", BITS)], {"fd": -1, "op": 2}),
    ("AsyncCancel", 14, "user_data:u64", "", [("user_data", "addr", BITS)], {"fd": -1}),
    ("LinkTimeout", 15, "timespec:u64", "flags:TimeoutFlags", [], {"fd": -1, "len": 1}),
    ("Fallocate", 17, "fd:Target len:u64", "offset:u64 mode:i32", [("len", "addr", BITS), ("mode", "len", BITS)], {}),
    ("OpenAt", 18, "dirfd:Fd pathname:u64", "file_index:Slot flags:i32 mode:u32", [("mode", "len", BITS)], {}),
    # A registered file to be closed stands in idx alone.
    ("Close", 19, "fd:Target", "", [("fd", "fd", DESCRIPTOR), ("fd", "idx", SUCCESSOR)], {}),
    ("FilesUpdate", 20, "fds:u64 len:u32", "offset:i32", [("fds", "addr", BITS)], {"fd": -1}),
    ("Statx", 21, "dirfd:Fd pathname:u64 statxbuf:u64", "flags:i32 mask:u32",
     [("mask", "len", BITS), ("statxbuf", "off", BITS)], {}),
    ("Read", 22, "fd:Target buf:u64 len:u32", "offset:u64 ioprio:u16 rw_flags:i32 buf_group:u16", [], {}),
    ("Write", 23, "fd:Target buf:u64 len:u32", "offset:u64 ioprio:u16 rw_flags:i32 write_stream:u8", [], {}),
    ("Fadvise", 24, "fd:Target len:i64 advice:i32", "offset:u64", [("advice", "op", BITS)], {}),
    ("Madvise", 25, "addr:u64 len:i64 advice:i32", "", [("advice", "op", BITS)], {"fd": -1}),
    ("OpenAt2", 28, "dirfd:Fd pathname:u64 how:u64", "file_index:Slot", [("how", "off", BITS)], {"len": 24}),
    ("Splice", 30, "fd_in:Target off_in:i64 fd_out:Target off_out:i64 len:u32", "flags:u31",
     [("fd_out", "fd", TARGET), ("off_out", "off", BITS), ("off_in", "addr", BITS), ("fd_in", "idx", NUMBER),
      ("fd_in", "op", Mark(1 << 31))], {}),
    ("ProvideBuffers", 31, "addr:u64 len:i32 nbufs:u16 bgid:u16 bid:u16", "",
     [("nbufs", "fd", BITS), ("bid", "off", BITS), ("bgid", "buf", BITS)], {}),
    ("RemoveBuffers", 32, "nbufs:u16 bgid:u16", "", [("nbufs", "fd", BITS), ("bgid", "buf", BITS)], {}),
    ("Tee", 33, "fd_in:Target fd_out:Target len:u32", "flags:u31",
     [("fd_out", "fd", TARGET), ("fd_in", "idx", NUMBER), ("fd_in", "op", Mark(1 << 31))], {}),
    ("RenameAt", 35, "olddirfd:Fd oldpath:u64 newdirfd:Fd newpath:u64", "flags:u32",
     [("newdirfd", "len", BITS), ("newpath", "off", BITS)], {}),
    ("UnlinkAt", 36, "dirfd:Fd pathname:u64", "flags:i32", [], {}),
    ("MkDirAt", 37, "dirfd:Fd pathname:u64", "mode:u32", [("mode", "len", BITS)], {}),
    ("SymlinkAt", 38, "newdirfd:Fd target:u64 linkpath:u64", "",
     [("newdirfd", "fd", BITS), ("target", "addr", BITS), ("linkpath", "off", BITS)], {}),
    ("LinkAt", 39, "olddirfd:Fd oldpath:u64 newdirfd:Fd newpath:u64", "flags:i32",
     [("newdirfd", "len", BITS), ("newpath", "off", BITS)], {}),
    ("FSetXattr", 41, "fd:Target name:u64 value:u64 len:u32", "flags:i32", [("value", "off", BITS)], {}),
    ("SetXattr", 42, "name:u64 value:u64 path:u64 len:u32", "flags:i32",
     [("value", "off", BITS), ("path", "third", BITS)], {}),
    ("FGetXattr", 43, "fd:Target name:u64 value:u64 len:u32", "", [("value", "off", BITS)], {}),
    ("GetXattr", 44, "name:u64 value:u64 path:u64 len:u32", "",
     [("value", "off", BITS), ("path", "third", BITS)], {}),
    # What a cancel holds: its target's word, the number that it asks for, and its flags.
    ("AsyncCancel2", 14, "to_fd:Cancel user_data:Cancel flags:Cancel", "",
     [("to_fd", "fd", BITS), ("user_data", "addr", BITS)], {}),
    ("ReadMulti", 49, "fd:Target len:u32 buf_group:u16", "offset:u64",
     [("fd", "fd", NUMBER)], {"flags": BUFFER_SELECT}),
    ("WaitId", 50, "idtype:u32 id:u32 options:i32", "infop:u64 flags:u32",
     [("id", "fd", BITS), ("idtype", "len", BITS), ("options", "idx", BITS), ("infop", "off", BITS)], {}),
    ("FutexWait", 51, "futex:u64 val:u64 mask:u64 futex_flags:u32", "flags:u32",
     [("futex_flags", "fd", BITS), ("futex", "addr", BITS), ("val", "off", BITS), ("mask", "third", BITS)], {}),
    ("FutexWake", 52, "futex:u64 val:u64 mask:u64 futex_flags:u32", "flags:u32",
     [("futex_flags", "fd", BITS), ("futex", "addr", BITS), ("val", "off", BITS), ("mask", "third", BITS)], {}),
    ("FutexWaitV", 53, "futexv:u64 nr_futex:u32", "flags:u32",
     [("futexv", "addr", BITS), ("nr_futex", "len", BITS)], {}),
    ("FixedFdInstall", 54, "fd:Fixed file_flags:u32", "", [("file_flags", "op", BITS)], {}),
    ("Ftruncate", 55, "fd:Target len:u64", "", [("len", "off", BITS)], {}),
    ("ReadvFixed", 60, "fd:Target iovec:u64 len:u32 buf_index:u16", "ioprio:u16 offset:u64 rw_flags:i32", [], {}),
    ("WritevFixed", 61, "fd:Target iovec:u64 len:u32 buf_index:u16",
     "ioprio:u16 offset:u64 rw_flags:i32 write_stream:u8", [], {}),
    ("Pipe", 62, "fds:u64", "flags:u32 file_index:Slot", [("fds", "addr", BITS)], {}),
    # Operations on sockets, epoll instances, other rings and devices.
    ("SendMsg", 9, "fd:Target msg:u64", "ioprio:u16 flags:u32", [], {"len": 1}),
    ("RecvMsg", 10, "fd:Target msg:u64", "ioprio:u16 flags:u32 buf_group:u16", [], {"len": 1}),
    ("RecvMsgMulti", 10, "fd:Target msg:u64 buf_group:u16", "ioprio:u16 flags:u32", [],
     {"len": 1, "flags": BUFFER_SELECT, "prio": 2}),
    ("Accept", 13, "fd:Target addr:u64 addrlen:u64", "file_index:Slot flags:i32", [("addrlen", "off", BITS)], {}),
    ("AcceptMulti", 13, "fd:Target", "allocate_file_index:bool flags:i32",
     [("allocate_file_index", "idx", Mark(4294967295))], {"prio": 1}),
    ("Connect", 16, "fd:Target addr:u64 addrlen:u32", "", [("addrlen", "off", BITS)], {}),
    ("Send", 26, "fd:Target buf:u64 len:u32", "ioprio:u16 flags:i32 dest_addr:u64 dest_addr_len:u32",
     [("dest_addr", "off", BITS), ("dest_addr_len", "idx", BITS)], {}),
    ("SendBundle", 26, "fd:Target buf_group:u16", "flags:i32 len:u32", [], {"prio": 16, "flags": BUFFER_SELECT}),
    ("Recv", 27, "fd:Target buf:u64 len:u32", "ioprio:u16 flags:i32 buf_group:u16", [], {}),
    ("RecvMulti", 27, "fd:Target buf_group:u16", "flags:i32 len:u32", [], {"prio": 2, "flags": BUFFER_SELECT}),
    ("RecvBundle", 27, "fd:Target buf_group:u16", "flags:i32", [], {"prio": 16, "flags": BUFFER_SELECT}),
    ("RecvMultiBundle", 27, "fd:Target buf_group:u16", "flags:i32", [], {"prio": 18, "flags": BUFFER_SELECT}),
    ("EpollCtl", 29, "epfd:Target fd:Fd op:i32 ev:u64", "",
     [("epfd", "fd", TARGET), ("ev", "addr", BITS), ("op", "len", BITS), ("fd", "off", BITS)], {}),
    ("Shutdown", 34, "fd:Target how:i32", "", [("how", "len", BITS)], {}),
    ("MsgRingData", 40, "ring_fd:Fd res:i32 user_data:u64 user_flags:u32?", "opcode_flags:u32",
     [("res", "len", BITS), ("user_data", "off", BITS), ("opcode_flags", "op", BITS), ("user_flags", "idx", BITS),
      ("user_flags", "op", Mark(2))], {}),
    ("MsgRingSendFd", 40, "ring_fd:Fd fixed_slot_src:Fixed dest_slot_index:Slot user_data:u64", "opcode_flags:u32",
     [("user_data", "off", BITS), ("fixed_slot_src", "third", BITS), ("dest_slot_index", "idx", SLOT),
      ("opcode_flags", "op", BITS)], {"addr": 1}),
    ("Socket", 45, "domain:i32 socket_type:i32 protocol:i32", "file_index:Slot flags:i32",
     [("domain", "fd", BITS), ("socket_type", "off", BITS), ("protocol", "len", BITS)], {}),
    ("UringCmd16", 46, "fd:Target cmd_op:u32", "buf_index:u16? cmd:16 addr:u64?",
     [("cmd_op", "off", BITS), ("cmd", "third", COMMAND), ("buf_index", "buf", BITS),
      ("buf_index", "op", Mark(1))], {}),
    ("UringCmd80", 46, "fd:Target cmd_op:u32", "buf_index:u16? cmd:80 addr:u64?",
     [("cmd_op", "off", BITS), ("cmd", "third", COMMAND), ("buf_index", "buf", BITS),
      ("buf_index", "op", Mark(1))], {}),
    ("SetSockOpt", 46, "fd:Target level:u32 optname:u32 optval:u64 optlen:u32", "flags:u32",
     [("level", "addr", BITS), ("optname", "addr", HIGH_HALF), ("optlen", "idx", BITS), ("optval", "third", BITS)],
     {"off": 3}),
    ("SendZc", 47, "fd:Target buf:u64 len:u32",
     "buf_index:u16? dest_addr:u64 dest_addr_len:u32 flags:i32 zc_flags:u16",
     [("zc_flags", "prio", BITS), ("buf_index", "buf", BITS), ("buf_index", "prio", Mark(4)),
      ("dest_addr", "off", BITS), ("dest_addr_len", "idx", BITS)], {}),
    ("SendMsgZc", 48, "fd:Target msg:u64", "ioprio:u16 flags:u32", [], {"len": 1}),
    ("Bind", 56, "fd:Target addr:u64 addrlen:u32", "", [("addrlen", "off", BITS)], {}),
    ("Listen", 57, "fd:Target backlog:i32", "", [("backlog", "len", BITS)], {}),
    ("RecvZc", 58, "fd:Target len:u32", "ifq:u32 ioprio:u16", [("ifq", "idx", BITS)], {"prio": 2}),
    ("EpollWait", 59, "fd:Target events:u64 max_events:u32", "flags:u32", [("max_events", "len", BITS)], {}),
]

# ---- The values: for each thing a wide one, the same wherever it occurs. A bit that a builder adds to a
# word isn't in them, so that it shows: a u31 is a u32 without its highest bit. ----

FILE, OTHER_FILE = Fixed(0xA6DE_7AD7), Fixed(0xFE12_0A27)
RAW, OTHER_RAW = Fd(-607_353_134), Fd(-1_373_034_935)

VALUES = {
    "addr:u64": 0xFC7B_0B84_81AC_B282,
    "addr:u64?": 0xFC7B_0B84_81AC_B282,
    "addrlen:u32": 0xEAD4_35D3,
    "addrlen:u64": 0x9DBF_DA30_7C42_5F14,
    "advice:i32": -1_645_612_087,
    "allocate_file_index:bool": True,
    "backlog:i32": -1_542_544_873,
    "bgid:u16": 0xD467,
    "bid:u16": 0xB71D,
    "buf:u64": 0x844D_67DD_CB2F_A828,
    "buf_group:u16": 0xAF34,
    "buf_index:u16": 0xFB96,
    "buf_index:u16?": 0xFB96,
    "cmd:16": bytes(range(0xC1, 0xC1 + 16)),
    "cmd:80": bytes(range(0x81, 0x81 + 80)),
    "cmd_op:u32": 0x9EC9_CDFC,
    "count:u32": 0xE8DB_ED9F,
    "dest_addr:u64": 0x8C98_D730_3576_A78A,
    "dest_addr_len:u32": 0xC0C7,
    "dest_slot_index:Slot": Slot(0xEE20_43E6),
    "dirfd:Fd": Fd(-560_477_068),
    "domain:i32": -198_701_421,
    "epfd:Target": FILE,
    "ev:u64": 0xBAB1_EEAA_DD5A_8C59,
    "events:u64": 0x8090_7756_90E7_AEE3,
    "fd:Fd": OTHER_RAW,
    "fd:Fixed": FILE,
    "fd:Target": FILE,
    "fd_in:Target": OTHER_FILE,
    "fd_out:Target": RAW,
    "fds:u64": 0xF18D_5C7E_4445_A7AA,
    "file_flags:u32": 0xDFBE_F019,
    "file_index:Slot": Slot(0xEE20_43E6),
    "fixed_slot_src:Fixed": Fixed(0xB21D_74E3),
    "flags:Cancel": 0,
    "flags:FsyncFlags": 0xC37B_1E22,
    "flags:TimeoutFlags": 0x9C64_0E78,
    "flags:i32": -1_261_684_573,
    "flags:u31": 0x3C25_39B2,
    "flags:u32": 0xBC25_39B2,
    "futex:u64": 0x8E8F_CCE1_CA15_F119,
    "futex_flags:u32": 0x9911_ED53,
    "futexv:u64": 0xA1DB_A93C_8E51_A889,
    "how:i32": -331_601_674,
    "how:u64": 0xA9F7_3FA3_8A56_E183,
    "id:u32": 0x85EE_C2F6,
    "idtype:u32": 0xEAC1_051E,
    "ifq:u32": 0xEA1E_1808,
    "infop:u64": 0x8883_4046_77C0_3802,
    "iovec:u64": 0xC822_8ED2_E51C_6031,
    "ioprio:u16": 0xE704,
    "len:i32": -318_355_827,
    "len:i64": 0xC6EA_229A,
    "len:u32": 0xE61E_4224,
    "len:u64": 0x8E12_13F1_7164_3328,
    "level:u32": 0xF8CB_CABB,
    "linkpath:u64": 0xB312_34CD_0551_50B8,
    "mask:u32": 0xEDEB_06B4,
    "mask:u64": 0xDA5D_D6F8_BFDD_440D,
    "max_events:u32": 0xC7A3_D719,
    "mode:i32": -1_562_906_852,
    "mode:u32": 0xCECB_2334,
    "msg:u64": 0xDC71_B29C_F64F_4664,
    "multi:bool": True,
    "name:u64": 0x9171_9C96_7DF4_7BC4,
    "nbufs:u16": 0xB6A9,
    "newdirfd:Fd": Fd(-2_063_462_213),
    "newpath:u64": 0xC993_F317_9E71_18F7,
    "nr_futex:u32": 0xDABB_5576,
    "off_in:i64": -695_043_340_091_877_799,
    "off_out:i64": -723_537_241_934_884_591,
    "offset:i32": -853_704_785,
    "offset:u64": 0xCEA7_2E89_5278_A90A,
    "olddirfd:Fd": Fd(-560_477_068),
    "oldpath:u64": 0xE358_E8B3_C87A_5485,
    "op:i32": -13_884_304,
    "opcode_flags:u32": 0x84BE_713D,
    "options:i32": -2_112_878_668,
    "optlen:u32": 0x8803_83A6,
    "optname:u32": 0xA16C_8BAC,
    "optval:u64": 0x8448_8449_0044_E945,
    "path:u64": 0x89AF_7C7D_E498_A769,
    "pathname:u64": 0xF06D_519C_7C39_1F88,
    "protocol:i32": -423_347_999,
    "res:i32": -759_652_337,
    "ring_fd:Fd": Fd(-1_165_874_684),
    "rw_flags:i32": -2_141_349_369,
    "socket_type:i32": -1_855_387_476,
    "statxbuf:u64": 0x94B5_993E_FD0C_4788,
    "target:u64": 0xF7A7_B236_C799_D29E,
    "timespec:u64": 0xFDED_BD0C_8DA6_6A4D,
    "to_fd:Cancel": -1,
    "user_data:Cancel": 0xAE0E_70C5_E1A9_941F,
    "user_data:u64": 0xAE0E_70C5_E1A9_941F,
    "user_flags:u32?": 0x9158_932A,
    "val:u64": 0xE221_2895_DF16_681B,
    "value:u64": 0x9445_B2E0_FCC2_513E,
    "write_stream:u8": 0xB6,
    "zc_flags:u16": 0x9F62,
}

# ---- Further cases: what is given otherwise than in VALUES. None isn't given. ----

MORE = {
    # The added bit is there already.
    "TimeoutUpdate": [{"flags": 0x9C64_0E7A}],
    "RecvMsgMulti": [{"ioprio": 0xE706}],
    "MsgRingData": [{"opcode_flags": 0x84BE_713F}, {"user_flags": None}],
    "SendZc": [{"zc_flags": 0x9F66}, {"buf_index": None}],
    "RecvZc": [{"ioprio": 0xE706}],
    "Splice": [{"flags": 0xBC25_39B2, "fd_out": FILE}, {"fd_in": OTHER_RAW}],
    "Tee": [{"flags": 0xBC25_39B2, "fd_out": FILE}, {"fd_in": OTHER_RAW}],
    # The partner chooses the slot.
    "OpenAt": [{"file_index": ANY_SLOT}],
    "OpenAt2": [{"file_index": ANY_SLOT}],
    "Pipe": [{"file_index": ANY_SLOT}],
    "Accept": [{"file_index": ANY_SLOT}],
    "MsgRingSendFd": [{"dest_slot_index": ANY_SLOT}],
    "Socket": [{"file_index": ANY_SLOT}],
    # One optional thing without the other.
    "UringCmd16": [{"buf_index": None}, {"addr": None}],
    "UringCmd80": [{"buf_index": None}, {"addr": None}],
    # By a registered file, by a descriptor, any; the first and the last of these mean all that fit, which
    # is the flag 1. A target is the flag 2, a registered one 8 beside it, and any is 4.
    "AsyncCancel2": [
        {"to_fd": int(FILE), "user_data": None, "flags": 2 + 8 + 1},
        {"to_fd": int(RAW), "user_data": None, "flags": 2},
        {"user_data": None, "flags": 4 + 1},
    ],
}


def things(row):
    """What the row's builder may be given, as pairs of a name and a type, and how many `new` takes."""
    given, set_later = row[2].split(), row[3].split()
    return [thing.split(":") for thing in given + set_later], len(given)


def places(row, name):
    """Where a thing of the row stands: pairs of a word and how."""
    own = [(word, how) for thing, word, how in row[4] if thing == name]
    return own or [PLACES[name]]


def stand(words, word, how, value):
    """Puts a value into the words."""
    bits = 8 * LAYOUT[word][1]
    cut = int(value) % 2**bits if isinstance(value, int) else None
    if how in (BITS, NUMBER):
        assert -(2 ** (bits - 1)) <= value < 2**bits, (word, value)
        words[word] |= cut
    elif how == TARGET:
        words[word] |= cut
        words["flags"] |= FIXED_FILE if isinstance(value, Fixed) else 0
    elif how == DESCRIPTOR:
        words[word] |= cut if isinstance(value, Fd) else 0
    elif how == SUCCESSOR:
        words[word] |= value + 1 if isinstance(value, Fixed) else 0
    elif how == SLOT:
        words[word] |= 2**32 - 1 if value == ANY_SLOT else value + 1
    elif how == HIGH_HALF:
        words[word] |= value << 32
    else:
        assert isinstance(how, Mark), how
        marked = value is True or isinstance(value, Fixed) or (value is not False and not isinstance(value, Fd))
        words[word] |= how if marked else 0


def entry(row, given):
    """The bytes of the entry with these things."""
    words = dict.fromkeys(LAYOUT, 0)
    words["opcode"] = row[1]
    command = b""
    for word, value in row[5].items():
        stand(words, word, BITS, value)
    for name, _ in things(row)[0]:
        value = given.get(name)
        for word, how in places(row, name):
            if how == COMMAND:
                command = value or b""
            elif value is not None:
                stand(words, word, how, value)
    data = bytearray(LARGE if row[0] == "UringCmd80" else SMALL)
    for word, (at, count) in LAYOUT.items():
        data[at : at + count] = words[word].to_bytes(count, "little")
    data[COMMAND_AT : COMMAND_AT + len(command)] = command
    return bytes(data)


def cases(row):
    """The things that the row's builder is given, case by case."""
    named, taken = things(row)
    whole = {name: VALUES[f"{name}:{kind}"] for name, kind in named}
    yield whole
    bare = {name: other(kind, whole[name]) for name, kind in named[:taken]}
    if bare != whole:
        yield bare
    for change in MORE.get(row[0], []):
        yield whole | change


def other(kind, value):
    """The value for the entry of `new` alone: the other kind of target, and no optional thing."""
    if kind == "Target":
        return RAW if isinstance(value, Fixed) else FILE
    return None if kind.endswith("?") else value


def table():
    """All lines."""
    codes = "".join(f"{row[0]} {row[1]}\n" for row in ROWS)
    return codes + "".join(f"{row[0]} {entry(row, given).hex()}\n" for row in ROWS for given in cases(row))


def main(words):
    if words not in ([], ["--check"]):
        sys.exit(__doc__)
    if not words:
        sys.stdout.write(table())
        return
    top = os.path.dirname(os.path.dirname(os.path.abspath(__file__)))
    with open(os.path.join(top, "crates", "builder_table", "stdout"), encoding="ascii") as file:
        kept = file.read()
    if kept != table():
        sys.exit("crates/builder_table/stdout differs from the table")
    print(f"{len(ROWS)} builders, {len(kept.splitlines())} lines: as the table says")


if __name__ == "__main__":
    main(sys.argv[1:])
