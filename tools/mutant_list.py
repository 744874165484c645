"""Mutants, each made in a definition and in the code alike, for `tools/mutants`.

A mutant is a name, the crates whose own proofs and laws may see it, the crates whose rows may, and the edits: a file under crates/, a text
that stands in it once, and what stands there instead. A text with {N} before it is the Nth of several, counted from 1.
"""
import collections

Mutant = collections.namedtuple('Mutant', 'name crates rows edits')

ASM = 'spc700_asm/specs/Characters.antt'
ASM_CODE = 'spc700_asm/src/characters.rt'
ASM_OPERANDS = 'spc700_asm/specs/Operands.antt'
ASM_STATEMENT = 'spc700_asm/src/statement.rt'
PATTERNS = 'spc700_asm/specs/Patterns.antt'
PATTERNS_CODE = 'spc700_asm/src/pattern.rt'
MNEMONICS = 'spc700_table/specs/Mnemonics.antt'
MNEMONICS_CODE = 'spc700_table/src/mnemonics.rt'
TAGS = 'spc_form/specs/Tags.antt'
TAGS_CODE = 'spc_form/src/tags.rt'
ACCEPTED = 'spc_form/specs/Accepted.antt'
READING = 'spc_form/src/reading.rt'
WAVE = 'wav_form/specs/Wave.antt'
WAVE_CODE = 'wav_form/src/written.rt'
MONO = 'wav_form/specs/Mono.antt'
MONO_CODE = 'wav_form/src/mono.rt'
CHUNKS = 'wav_form/specs/Chunks.antt'
CHUNKS_CODE = 'wav_form/src/chunk.rt'
LINE = 'trace_form/specs/Line.antt'
LINE_CODE = 'trace_form/src/text.rt'
COUNTER = 'rate_clock/specs/Counter.antt'
CLOCK = 'rate_clock/src/clock.rt'
NOISE = 'rate_clock/specs/Noise.antt'
NOISE_CODE = 'rate_clock/src/noise.rt'
IO = 'ports_timers/specs/Io.antt'
IO_CODE = 'ports_timers/src/io.rt'
TIMER = 'ports_timers/specs/Timer.antt'
TIMER_CODE = 'ports_timers/src/timer.rt'
ENVELOPE = 'envelope/specs/Envelope.antt'
TARGET = 'envelope/src/target.rt'
ENVELOPE_CODE = 'envelope/src/lib.rt'
KEPT = 'brr_decode/specs/Kept.antt'
HEADER = 'brr_decode/specs/Header.antt'
DIGIT = 'brr_decode/src/digit.rt'
BLOCK = 'brr_decode/src/block.rt'
MIX = 'gauss_table/specs/Interpolation.antt'
QUAD = 'gauss_table/src/quad.rt'
TAPS = 'gauss_table/src/taps.rt'
FLG = 'echo_unit/specs/Flg.antt'
FLG_CODE = 'echo_unit/src/flg.rt'
REGISTERS = 'dsp_state/src/registers.rt'
STATUSES = 'exit_status/specs/Statuses.antt'
STATUS = 'exit_status/src/status.rt'
LINES = 'exit_status/specs/Lines.antt'
LINES_CODE = 'exit_status/src/lines.rt'
DRAWS = 'demo_gen/specs/Draws.antt'
DRAWS_CODE = 'demo_gen/src/draws.rt'
INFO = 'command_info/specs/Info.antt'
INFO_CODE = 'command_info/src/command.rt'
DECIMAL = 'spc700_alu/specs/Decimal.antt'
DECIMAL_CODE = 'spc700_alu/src/decimal.rt'
OPENED = 'render_core/specs/Opening.antt'
OPENED_CODE = 'render_core/src/render.rt'
BATCHES = 'render_files/specs/RenderReport.antt'
BATCHES_CODE = 'render_files/src/sound_report.rt'
STREAMING = 'command_runner/src/streaming.rt'
SESSION = 'cut_form/specs/Session.antt'
OPTIONS = 'command_line/specs/Options.antt'
OPTIONS_CODE = 'command_line/src/options.rt'
ENCODE_WORDS = 'command_line/specs/EncodeWords.antt'
ENCODE_WORDS_CODE = 'command_line/src/encode_words.rt'
REPLIES = 'session_files/src/replies.rt'
STATE = 'spc_form/specs/Opening.antt'
STATE_CODE = 'spc_form/src/state.rt'
FLAGS = 'spc700_alu/specs/Flags.antt'
FLAGS_CODE = 'spc700_alu/src/flags.rt'
OFFSETS = '0 ∷ 0 ∷ 1040 ∷ 536 ∷ 0 ∷ 1040 ∷ 536 ∷ 0 ∷ 1040 ∷ 536 ∷ 0 ∷\n' \
    '    1040 ∷ 536 ∷ 0 ∷ 1040 ∷ 536 ∷ 0 ∷ 1040 ∷ 536 ∷ 0 ∷ 1040 ∷ 536 ∷\n' \
    '    0 ∷ 1040 ∷ 536 ∷ 0 ∷ 1040 ∷ 536 ∷ 0 ∷ 1040 ∷ 0 ∷ 0 ∷ []'
OFFSETS_CODE = '1040, 536, 0, 1040, 536, 0, 1040, 536, 0, 1040, 536, 0, 1040, 536, 0, 1040, 536, 0, 1040,\n' \
    '    536, 0, 1040, 536, 0, 1040, 536, 0, 1040, 0, 0,'
ZEROS = 'ports_timers/specs/Zeros.antt'
ZEROS_CODE = 'ports_timers/src/zeros.rt'
CHIP = 'dsp_state/specs/Registers.antt'
VOLUMES = 'dsp_state/specs/Volumes.antt'
VOLUMES_CODE = 'dsp_state/src/volumes.rt'
KEYS = 'batch_rows/src/keys.rt'
VOICE = 'voice_unit/specs/Voice.antt'
VOICE_CODE = 'voice_unit/src/voice.rt'
LEVEL = 'voice_unit/src/level.rt'
DIRECTORY = 'voice_unit/specs/Directory.antt'
DIRECTORY_CODE = 'voice_unit/src/directory.rt'
FIR = 'echo_unit/specs/Fir.antt'
FILTER = 'echo_unit/src/filter.rt'
PARTS = 'echo_unit/src/parts.rt'
ECHO_ROWS = 'echo_unit/src/rows.rt'
ECHO = 'echo_unit/specs/Echo.antt'
ECHO_CODE = 'echo_unit/src/echo.rt'
CELL = 'echo_unit/src/cell.rt'
VOLUME = 'echo_unit/src/volume.rt'
PAGE = 'echo_unit/specs/Page.antt'
PAGE_CODE = 'echo_unit/src/page.rt'
WINDOW = 'echo_unit/specs/Window.antt'
FADE = 'render_core/specs/Fade.antt'
FADE_CODE = 'render_core/src/fade.rt'
ENCODING = 'brr_encode/specs/Encoding.antt'
LEAST = 'brr_encode/specs/Least.antt'
CHOICE = 'brr_encode/src/choice.rt'
SEARCH = 'brr_encode/src/search.rt'
BYTES = 'spc700_alu/specs/Bytes.antt'
BYTES_CODE = 'spc700_alu/src/bytes.rt'
BITS = 'spc700_alu/specs/Bits.antt'
BITS_CODE = 'spc700_alu/src/bits.rt'
WORDS = 'spc700_alu/specs/WordArithmetic.antt'
WORDS_CODE = 'spc700_alu/src/word_arithmetic.rt'
RESULTS = 'dsp_state/specs/Results.antt'
RESULTS_CODE = 'dsp_state/src/results.rt'
OUTSIDE = 'dsp_state/specs/Outside.antt'
DSP_CODE = 'dsp_core/src/dsp.rt'
CUT = 'cut_form/src/cut.rt'

MUTANTS = [
    # the assembler's text
    Mutant('the mnemonics EI and DI exchanged', ['spc700_table'], ['tests_files'], [
        (MNEMONICS, 'mnemonic_of Ei = codes "EI"', 'mnemonic_of Ei = codes "DI"'),
        (MNEMONICS, 'mnemonic_of Di = codes "DI"', 'mnemonic_of Di = codes "EI"'),
        (MNEMONICS_CODE, 'Ei => b"EI"', 'Ei => b"DI"'), (MNEMONICS_CODE, 'Di => b"DI"', 'Di => b"EI"')]),
    Mutant('the mnemonics SLEEP and STOP exchanged', ['spc700_table'], ['tests_files'], [
        (MNEMONICS, 'mnemonic_of Sleep = codes "SLEEP"', 'mnemonic_of Sleep = codes "STOP"'),
        (MNEMONICS, 'mnemonic_of Stop = codes "STOP"', 'mnemonic_of Stop = codes "SLEEP"'),
        (MNEMONICS_CODE, 'Sleep => b"SLEEP"', 'Sleep => b"STOP"'), (MNEMONICS_CODE, 'Stop => b"STOP"', 'Stop => b"SLEEP"')]),
    Mutant('the mnemonics TSET1 and TCLR1 exchanged', ['spc700_table'], ['tests_files'], [
        (MNEMONICS, 'codes "TSET1"', 'codes "TXXX1"'), (MNEMONICS, 'codes "TCLR1"', 'codes "TSET1"'), (MNEMONICS, 'codes "TXXX1"', 'codes "TCLR1"'),
        (MNEMONICS_CODE, 'b"TSET1"', 'b"TXXX1"'), (MNEMONICS_CODE, 'b"TCLR1"', 'b"TSET1"'), (MNEMONICS_CODE, 'b"TXXX1"', 'b"TCLR1"')]),
    Mutant('(X)+ written (X+)', ['spc700_asm'], ['tests_files'], [
        (PATTERNS, '(codes "X") (codes ")+")', '(codes "X") (codes "+)")'), (PATTERNS_CODE, 'b"X", b")+")', 'b"X", b"+)")')]),
    Mutant('[d]+Y written [d+Y]', ['spc700_asm'], ['tests_files'], [
        (PATTERNS, '(codes "]+Y")', '(codes "+Y]")'), (PATTERNS_CODE, 'b"]+Y")', 'b"+Y]")')]),
    Mutant('/m.b written !m.b', ['spc700_asm'], ['tests_files'], [
        (PATTERNS, '(codes "/")', '(codes "-")'), (PATTERNS_CODE, 'b"/", Slot', 'b"-", Slot')]),
    Mutant('PSW written P', ['spc700_asm'], ['tests_files'], [
        (PATTERNS, '(codes "PSW")', '(codes "P")'), (PATTERNS_CODE, 'b"PSW"', 'b"P"')]),
    Mutant('names of 33 characters', ['spc700_asm'], ['tests_files'], [
        (ASM, 'max_name_characters = 32', 'max_name_characters = 33'), (ASM_CODE, 'MAX_NAME_CHARACTERS: usize = 32', 'MAX_NAME_CHARACTERS: usize = 33')]),
    Mutant('names of 31 characters at most', ['spc700_asm'], ['tests_files'], [
        (ASM, 'max_name_characters = 32', 'max_name_characters = 31'), (ASM_CODE, 'MAX_NAME_CHARACTERS: usize = 32', 'MAX_NAME_CHARACTERS: usize = 31')]),
    Mutant('a carriage return is no blank', ['spc700_asm'], ['tests_files'], [
        (ASM, '((character == 9) || (character == 13))', '(character == 9)'), (ASM_CODE, " || character == b'\\r'", '')]),
    Mutant('a tab is no blank', ['spc700_asm'], ['tests_files'], [
        (ASM, '((character == 9) || (character == 13))', '(character == 13)'), (ASM_CODE, " || character == b'\\t'", '')]),
    Mutant('a vertical tab is a blank', ['spc700_asm'], ['tests_files'], [
        (ASM, '(character == 13))', '((character == 13) || (character == 11)))'), (ASM_CODE, " || character == b'\\r'", " || character == b'\\r' || character == 11")]),
    Mutant('a hyphen in place of _ in names', ['spc700_asm'], ['tests_files'], [
        (ASM, '(character == byte "_")', '(character == byte "-")'), (ASM_CODE, "character == b'_'", "character == b'-'")]),
    Mutant('.word 99999 taken', ['spc700_asm'], ['tests_files'], [
        ('spc700_asm/specs/Faults.antt', 'list_any (is_above 0xFFFF) words', 'list_any (is_above 0x1FFFF) words'),
        ('spc700_asm/src/faults.rt', 'list_any (is_above 0xFFFF) (unwrap_or', 'list_any (is_above 0x1FFFF) (unwrap_or'),
        ('spc700_asm/src/faults.rt', 'is_above(0xffff, written_in(trim(item))', 'is_above(0x1ffff, written_in(trim(item))')]),
    Mutant('bits of memory from 2000h on', ['spc700_asm'], ['tests_files'], [
        ('spc700_asm/specs/Operands.antt', 'is_above 0x1FFF value', 'is_above 0x3FFF value'),
        ('spc700_asm/src/faults.rt', 'is_above(0x1fff, operand.value)', 'is_above(0x3fff, operand.value)')]),
    Mutant('a name at the end of the memory stands for its last byte', ['spc700_asm'], ['tests_files'], [
        ('spc700_asm/specs/Labels.antt', '(name, at % 0x10000)', '(name, min at 0xFFFF)'), ('spc700_asm/specs/Labels.antt', '{ℕ, ◌+◌, ◌*◌, ◌%◌,', '{ℕ, min, ◌+◌, ◌*◌,'),
        ('spc700_asm/src/survey.rt', '(at % 0x1_0000) as u16', 'at.min(0xffff) as u16')]),
    Mutant('registers after a number in capitals alone', ['spc700_asm'], ['tests_files'], [
        (ASM_OPERANDS, 'bytes_eq (capitals operand.after) pattern.after', 'bytes_eq operand.after pattern.after'),
        (ASM_STATEMENT, 'is_capitals_of(operand.after, pattern.after)', 'is_same(operand.after, pattern.after)')]),
    Mutant('blanks between a name and its colon', ['spc700_asm'], ['tests_files'], [
        ('spc700_asm/specs/Statements.antt', 'is_name (take colon text) then Some (Name (take colon text))',
         'is_name (trim (take colon text)) then Some (Name (trim (take colon text)))'),
        (ASM_STATEMENT, 'let name = text.split_at(colon).0;', 'let name = trim(text.split_at(colon).0);')]),
    Mutant('bits of direct bytes above 255', ['spc700_asm'], ['tests_files'], [
        (ASM_OPERANDS, 'is_great (OwnBit own) value bit = is_above 0xFF value || nat_lt 7 (unwrap_or bit 0)', 'is_great (OwnBit own) value bit = nat_lt 7 (unwrap_or bit 0)'),
        ('spc700_asm/src/faults.rt', 'is_above(0xff, operand.value) || operand.bit.unwrap_or(0) > 7', 'operand.bit.unwrap_or(0) > 7')]),
    Mutant('names where a bit is given', ['spc700_asm'], ['tests_files'], [
        (ASM_OPERANDS, 'fills register MemoryBit value bit = is_some bit && is_plain value', 'fills register MemoryBit value bit = is_some bit'),
        (ASM_OPERANDS, 'fills register (OwnBit own) value bit = is_some bit && is_plain value', 'fills register (OwnBit own) value bit = is_some bit'),
        (ASM_STATEMENT, 'bit.is_some() && is_plain(value)', 'bit.is_some()')]),
    Mutant('a bit dropped where there is none', ['spc700_asm'], ['tests_files'], [
        (ASM_OPERANDS, 'fills register Byte value bit = is_none bit && is_plain value', 'fills register Byte value bit = is_plain value'),
        (ASM_OPERANDS, 'fills register (OwnEntry own) value bit = is_none bit && is_plain value', 'fills register (OwnEntry own) value bit = is_plain value'),
        (ASM_STATEMENT, 'bit.is_none() && is_plain(value)', 'is_plain(value)')]),

    # the processor's arithmetic
    Mutant('DAA adds 61h to the tens', ['spc700_alu'], ['tests_parts'], [
        (DECIMAL, '(a + 0x60) % 0x100', '(a + 0x61) % 0x100'), (DECIMAL_CODE, 'a.wrapping_add(0x60)', 'a.wrapping_add(0x61)')]),
    Mutant('DAS takes 5 from the ones', ['spc700_alu'], ['tests_parts'], [
        (DECIMAL, '(adjusted + 0x100 - 6) % 0x100', '(adjusted + 0x100 - 5) % 0x100'), (DECIMAL_CODE, 'adjusted.wrapping_sub(6)', 'adjusted.wrapping_sub(5)')]),
    Mutant('H after DIV only where the digit of X is less', ['spc700_alu'], ['tests_parts'], [
        ('spc700_alu/specs/WordArithmetic.antt', 'nat_le (x % 0x10) (ya / 0x100 % 0x10)', 'nat_lt (x % 0x10) (ya / 0x100 % 0x10)'),
        ('spc700_alu/src/word_arithmetic.rt', 'x % 0x10 <= y % 0x10', 'x % 0x10 < y % 0x10')]),
    Mutant('V and P exchanged in the status', ['spc700_alu'], ['tests_parts'], [
        (FLAGS, 'V = 0x40', 'V = 0x20'), (FLAGS, 'P = 0x20', 'P = 0x40'),
        (FLAGS_CODE, 'OVERFLOW: u8 = 0x40', 'OVERFLOW: u8 = 0x20'), (FLAGS_CODE, 'DIRECT_PAGE: u8 = 0x20', 'DIRECT_PAGE: u8 = 0x40')]),
    Mutant('H and I exchanged in the status', ['spc700_alu'], ['tests_parts'], [
        (FLAGS, 'H = 0x08', 'H = 0x04'), (FLAGS, 'I = 0x04', 'I = 0x08'),
        (FLAGS_CODE, 'HALF: u8 = 0x08', 'HALF: u8 = 0x04'), (FLAGS_CODE, 'INTERRUPT: u8 = 0x04', 'INTERRUPT: u8 = 0x08')]),
    Mutant('Z and C exchanged in the status', ['spc700_alu'], ['tests_parts'], [
        (FLAGS, 'Z = 0x02', 'Z = 0x01'), (FLAGS, 'C = 0x01', 'C = 0x02'),
        (FLAGS_CODE, 'ZERO: u8 = 0x02', 'ZERO: u8 = 0x01'), (FLAGS_CODE, 'CARRY: u8 = 0x01', 'CARRY: u8 = 0x02')]),
    Mutant('N and B exchanged in the status', ['spc700_alu'], ['tests_parts'], [
        (FLAGS, 'N = 0x80', 'N = 0x10'), (FLAGS, 'B = 0x10', 'B = 0x80'),
        (FLAGS_CODE, 'NEGATIVE: u8 = 0x80', 'NEGATIVE: u8 = 0x10'), (FLAGS_CODE, 'BREAK: u8 = 0x10', 'BREAK: u8 = 0x80')]),
    Mutant('the table of calls one entry lower', ['spc700_exec'], ['tests_programs'], [
        ('spc700_exec/specs/Operands.antt', 'call_entry n = 0xffde', 'call_entry n = 0xffdc'),
        ('spc700_exec/src/operand.rt', 'Operand::At(0xffde', 'Operand::At(0xffdc'), ('spc700_exec/src/jumps.rt', 'Operand::At(0xffde', 'Operand::At(0xffdc')]),
    Mutant('OR and EOR exchanged', ['spc700_alu'], ['tests_parts'], [
        (BYTES, 'logic_value Logic.Or a b = bit_or a b', 'logic_value Logic.Or a b = bit_xor a b'),
        (BYTES, 'logic_value Logic.Eor a b = bit_xor a b', 'logic_value Logic.Eor a b = bit_or a b'),
        (BYTES_CODE, 'LogicKind::Or => a | b', 'LogicKind::Or => a ^ b'), (BYTES_CODE, 'LogicKind::Eor => a ^ b', 'LogicKind::Eor => a | b')]),
    Mutant('ROL brings in 0', ['spc700_alu'], ['tests_parts'], [
        (BYTES, 'nz_result (v * 2 % 0x100 + carry_in psw)', 'nz_result (v * 2 % 0x100)'), (BYTES_CODE, '(v as u16 * 2 % 0x100) as u8 + carry(psw)', '(v as u16 * 2 % 0x100) as u8')]),
    Mutant('LSR brings in C', ['spc700_alu'], ['tests_parts'], [
        (BYTES, 'Shift.Lsr v psw = nz_result (v / 2) ', 'Shift.Lsr v psw = nz_result (v / 2 + 0x80 * carry_in psw) '),
        (BYTES_CODE, 'ShiftKind::Lsr => shift_result(v / 2,', 'ShiftKind::Lsr => shift_result(v / 2 + 0x80 * carry(psw),')]),
    Mutant('H after ADDW and SUBW by the carry out of bit 3', ['spc700_alu'], ['tests_parts'], [
        (WORDS, 'nat_le 0x1000 (a % 0x1000 + b % 0x1000 + carry)', 'nat_le 0x10 (a % 0x10 + b % 0x10 + carry)'),
        (WORDS_CODE, 'a % 0x1000 + b % 0x1000 + carry >= 0x1000', 'a % 0x10 + b % 0x10 + carry >= 0x10')]),
    Mutant('OR1 C,/m.b takes the bit itself', ['spc700_alu'], ['tests_parts'], [
        (BITS, '(flag C psw || not (flag (2 ^ bit) byte))', '(flag C psw || flag (2 ^ bit) byte)'), (BITS_CODE, 'carry || !on', 'carry || on')]),
    Mutant('AND1 C,m.b takes C or the bit', ['spc700_alu'], ['tests_parts'], [
        (BITS, '(flag C psw && flag (2 ^ bit) byte)', '(flag C psw || flag (2 ^ bit) byte)'), (BITS_CODE, 'carry && on', 'carry || on')]),

    # SPC files and what is shown of them
    Mutant("the dumper's and the date's places exchanged", ['spc_form'], ['tests_commands'], [
        (TAGS, 'field_start Dumper = 0x6E', 'field_start Dumper = 0x9E'), (TAGS, 'field_start Date = 0x9E', 'field_start Date = 0x6E'),
        (TAGS_CODE, 'Tag::Dumper => 0x6E', 'Tag::Dumper => 0x9E'), (TAGS_CODE, 'Tag::Date => 0x9E', 'Tag::Date => 0x6E')]),
    Mutant("the title's and the game's places exchanged", ['spc_form'], ['tests_commands'], [
        (TAGS, 'field_start Title = 0x2E', 'field_start Title = 0x4E'), (TAGS, 'field_start Game = 0x4E', 'field_start Game = 0x2E'),
        (TAGS_CODE, 'Tag::Title => 0x2E', 'Tag::Title => 0x4E'), (TAGS_CODE, 'Tag::Game => 0x4E', 'Tag::Game => 0x2E')]),
    Mutant('the artist one byte earlier', ['spc_form'], ['tests_commands'], [
        (TAGS, 'field_start Artist = 0xB1', 'field_start Artist = 0xB0'), (TAGS_CODE, 'Tag::Artist => 0xB1', 'Tag::Artist => 0xB0')]),
    Mutant('a date of ten bytes', ['spc_form'], ['tests_commands'], [
        (TAGS, 'field_size Date = 11', 'field_size Date = 10'), (TAGS_CODE, 'Tag::Date => 11', 'Tag::Date => 10')]),
    Mutant('a dumper of 32 bytes', ['spc_form'], ['tests_commands'], [
        (TAGS, 'field_size Dumper = 16', 'field_size Dumper = 32'), (TAGS_CODE, 'Tag::Dumper => 16', 'Tag::Dumper => 32')]),
    Mutant('an artist of 31 bytes', ['spc_form'], ['tests_commands'], [
        (TAGS, 'field_size Artist = 32', 'field_size Artist = 31'),
        (TAGS_CODE, 'Tag::Title | Tag::Game | Tag::Comments | Tag::Artist => 32', 'Tag::Artist => 31, Tag::Title | Tag::Game | Tag::Comments => 32')]),
    Mutant('the comments one byte earlier', ['spc_form'], ['tests_commands'], [
        (TAGS, 'field_start Comments = 0x7E', 'field_start Comments = 0x7D'), (TAGS_CODE, 'Tag::Comments => 0x7E', 'Tag::Comments => 0x7D')]),
    Mutant('the seconds one byte later', ['spc_form'], ['tests_files', 'tests_commands'], [
        (TAGS, 'field_start Seconds = 0xA9', 'field_start Seconds = 0xAA'), (TAGS_CODE, 'Tag::Seconds => 0xA9', 'Tag::Seconds => 0xAA')]),
    Mutant('the fade one byte later', ['spc_form'], ['tests_files', 'tests_commands'], [
        (TAGS, 'field_start Fade = 0xAC', 'field_start Fade = 0xAD'), (TAGS_CODE, 'Tag::Fade => 0xAC', 'Tag::Fade => 0xAD')]),
    Mutant('1Bh for the mark of tags', ['spc_form'], ['tests_files', 'tests_commands'], [
        (TAGS, 'tag_mark_of file == 0x1A', 'tag_mark_of file == 0x1B'), (TAGS_CODE, 'bytes[TAG_MARK_PLACE] == 0x1A', 'bytes[TAG_MARK_PLACE] == 0x1B')]),
    Mutant('a length of no seconds is given by the tags', ['spc_form'], ['tests_files'], [
        (TAGS, 'is_some_time (Some seconds) = not (seconds == 0)', 'is_some_time (Some seconds) = not (seconds == 70000)'),
        (TAGS_CODE, 'Some(seconds) => seconds != 0,', 'Some(_seconds) => true,')]),
    Mutant('the artist before the game for callers', ['spc_form'], ['tests_files'], [
        (TAGS, 'Title ∷ Game ∷ Artist', 'Title ∷ Artist ∷ Game'),
        ('spc_form/src/inspection.rt', 'text_place(bytes, Tag::Game)', 'text_place(bytes, Tag::Artist)'),
        ('spc_form/src/inspection.rt', '{2}text_place(bytes, Tag::Artist)', 'text_place(bytes, Tag::Game)')]),
    Mutant('bit 6 shows the ROM at the opening', ['spc_form'], ['tests_files'], [
        (STATE, '(memory_of file) 0xF1) 7', '(memory_of file) 0xF1) 6'), (STATE_CODE, 'has_bit(image[0xF1], 7)', 'has_bit(image[0xF1], 6)')]),
    Mutant('31 frames a millisecond of a fade', ['spc_form'], ['tests_files'], [
        (TAGS_CODE, 'SAMPLES_PER_MILLISECOND: u32 = 32', 'SAMPLES_PER_MILLISECOND: u32 = 31')]),
    Mutant('another length without tags', ['spc_form'], ['tests_files'], [
        (TAGS, 'frames = 5760000;', 'frames = 5760001;'), (TAGS_CODE, '180 * SAMPLE_RATE', '180 * SAMPLE_RATE + 1')]),
    Mutant('a signature in small letters', ['spc_form'], ['tests_files', 'tests_commands'], [
        (ACCEPTED, 'codes "SNES-SPC700 Sound File Data"', 'codes "SNES-SPC700 sound File Data"'),
        (READING, '*b"SNES-SPC700 Sound File Data"', '*b"SNES-SPC700 sound File Data"')]),
    Mutant('files of 65,919 bytes accepted', ['spc_form'], ['tests_files', 'tests_commands'], [
        (ACCEPTED, 'min_length = 65920', 'min_length = 65919'), (READING, 'MIN_LENGTH: usize = 65920', 'MIN_LENGTH: usize = 65919')]),
    Mutant('missing bytes of a file count as FFh', ['spc_form', 'demo_gen'], ['tests_files'], [
        (ACCEPTED, 'replicate (n - length bytes) 0', 'replicate (n - length bytes) 0xFF'), (READING, 'copy.resize(size, 0)', 'copy.resize(size, 0xff)')]),
    Mutant('what stands after the digits of a number in a tag', ['spc_form'], ['tests_files'], [
        (TAGS, 'nat_lt 0 count && list_all', 'nat_lt 0 count || list_all'), (TAGS, 'not, ◌&&◌, nat_lt', 'not, ◌||◌, nat_lt'),
        (TAGS_CODE, 'count > 0 && is_blank(', 'count > 0 || is_blank(')]),
    Mutant('A shown for X and X for A', ['command_info'], ['tests_commands'], [
        (INFO, 'register_text (codes "a") (a_of file) ++ register_text (codes "x") (x_of file)',
         'register_text (codes "a") (x_of file) ++ register_text (codes "x") (a_of file)'),
        (INFO_CODE, 'put_register(report, b"a", file.a())?', 'put_register(report, b"a", file.x())?'),
        (INFO_CODE, 'put_register(report, b"x", file.x())?', 'put_register(report, b"x", file.a())?')]),
    Mutant('the status and the stack pointer exchanged', ['command_info'], ['tests_commands'], [
        (INFO, 'register_text (codes "psw") (psw_of file) ++ register_text (codes "sp") (sp_of file)',
         'register_text (codes "psw") (sp_of file) ++ register_text (codes "sp") (psw_of file)'),
        (INFO_CODE, 'put_register(report, b"psw", file.psw())?', 'put_register(report, b"psw", file.sp())?'),
        (INFO_CODE, 'put_register(report, b"sp", file.sp())', 'put_register(report, b"sp", file.psw())')]),
    Mutant('the tag named author', ['command_info'], ['tests_commands'], [
        (INFO, 'codes "artist"', 'codes "author"'), (INFO_CODE, 'b"artist"', 'b"author"')]),

    # sound files
    Mutant('a rate of 32,040 in the head', ['wav_form'], ['tests_files'], [
        (WAVE, 'little_bytes 4 SAMPLE_RATE ++', 'little_bytes 4 32040 ++'), (WAVE_CODE, '\\x00\\x7d', '\\x28\\x7d')]),
    Mutant('another byte rate', ['wav_form'], ['tests_files'], [
        (WAVE, 'little_bytes 4 (SAMPLE_RATE * frame_size channels)', 'little_bytes 4 (32040 * frame_size channels)'),
        (WAVE_CODE, 'SAMPLE_RATE * frame_size', '32040 * frame_size')]),
    Mutant('a size of 44 and the frames after RIFF', ['wav_form'], ['tests_files'], [
        (WAVE, '(36 + frames * frame_size channels)', '(44 + frames * frame_size channels)'), (WAVE_CODE, '36 + size', '44 + size')]),
    Mutant('a block align of one sample', ['wav_form'], ['tests_files'], [
        (WAVE, 'little_bytes 2 (frame_size channels)', 'little_bytes 2 2'), (WAVE_CODE, 'write_u16(&mut bytes[32..], 2 * channels)', 'write_u16(&mut bytes[32..], 2)')]),
    Mutant('format 3 in the head', ['wav_form'], ['tests_files'], [
        (WAVE, 'little_bytes 2 1 ++', 'little_bytes 2 3 ++'), (WAVE_CODE, '\\x10\\0\\0\\0\\x01', '\\x10\\0\\0\\0\\x03')]),
    Mutant('right before left', ['wav_form'], ['tests_files'], [
        (WAVE, 'sample_bytes frame.left ++ sample_bytes frame.right', 'sample_bytes frame.right ++ sample_bytes frame.left'),
        (WAVE_CODE, 'write_i16(&mut bytes, frame.left)', 'write_i16(&mut bytes, frame.right)'),
        (WAVE_CODE, 'write_i16(&mut bytes[2..], frame.right)', 'write_i16(&mut bytes[2..], frame.left)')]),
    Mutant('format 3 read as PCM', ['wav_form'], ['tests_files'], [
        (MONO, '(little_number 2 body == 1)', '(little_number 2 body == 3)'), (MONO_CODE, 'read_u16(body) == 1', 'read_u16(body) == 3')]),
    Mutant('two channels read as one', ['wav_form'], ['tests_files'], [
        (MONO, '(little_number 2 (drop 2 body) == 1)', '(little_number 2 (drop 2 body) == 2)'), (MONO_CODE, 'read_u16(&body[2..]) == 1', 'read_u16(&body[2..]) == 2')]),
    Mutant('any format number read as PCM', ['wav_form'], ['tests_files'], [
        (MONO, '(little_number 2 body == 1) && ', ''), (MONO_CODE, '        && LittleEndian::read_u16(body) == 1\n', '')]),
    Mutant('any number of bits read as 16', ['wav_form'], ['tests_files'], [
        (MONO, ' && (little_number 2 (drop 14 body) == 16)', ''), (MONO_CODE, '\n        && LittleEndian::read_u16(&body[14..]) == 16', '')]),
    Mutant('formats of 16 bytes alone', ['wav_form'], ['tests_files'], [
        (MONO, 'nat_le 16 (length body)', '(length body == 16)'), (MONO_CODE, 'body.len() >= 16', 'body.len() == 16')]),
    Mutant('RIFF not looked at', ['wav_form'], ['tests_files'], [
        (MONO, '(bytes_eq (take 4 bytes) (codes "RIFF") && bytes_eq (take 4 (drop 8 bytes)) (codes "WAVE"))', 'bytes_eq (take 4 (drop 8 bytes)) (codes "WAVE")'),
        (MONO_CODE, 'bytes[..4].starts_with(b"RIFF") && ', '')]),
    Mutant('WAVE not looked at', ['wav_form'], ['tests_files'], [
        (MONO, '(bytes_eq (take 4 bytes) (codes "RIFF") && bytes_eq (take 4 (drop 8 bytes)) (codes "WAVE"))', 'bytes_eq (take 4 bytes) (codes "RIFF")'),
        (MONO_CODE, ' && bytes[8..12].starts_with(b"WAVE")', '')]),
    Mutant('a later format says the form, too', ['wav_form'], ['tests_files'], [
        (MONO, '    else if has_format then samples_of_chunks true chunks\n', ''), (MONO, 'samples_of_chunks false chunks\n', 'samples_of_chunks has_format chunks\n'),
        (MONO_CODE, '    if has_format {\n        return Ok(true);\n    }\n', ''), (MONO_CODE, 'return Ok(false);', 'return Ok(has_format);')]),
    Mutant('an odd chunk at the end needs a byte more', ['wav_form'], ['tests_files'], [
        (CHUNKS, 'body = take size (drop 8 bytes)', 'body = take (min size (length (drop 8 bytes) - size % 2)) (drop 8 bytes)'),
        (CHUNKS, '{ℕ, zero, suc, ◌+◌,', '{ℕ, zero, suc, min, ◌+◌, ◌-◌,'),
        (CHUNKS_CODE, '(size as usize).min(tail.len())', '(size as usize).min(tail.len().saturating_sub(size as usize % 2))')]),
    Mutant('sound files of 16,777,215 bytes at most', ['snd_host', 'input_files', 'command_encode'], ['tests_commands'], [
        ('snd_host/specs/Host.antt', 'max_limit = 16777216', 'max_limit = 16777215'),
        ('input_files/src/reading.rt', 'WAVE_LIMIT: usize = 16777216', 'WAVE_LIMIT: usize = 16777215')]),

    # the memory beneath what the processor reads
    Mutant('a write of a port stays out of memory', ['lock_step', 'sound_bus', 'lag_bus'], ['tests_programs'], [
        ('lock_step/specs/LockStep.antt', 'memory = with_byte m.memory at value', 'memory = if writes_port at then m.memory else with_byte m.memory at value'),
        ('sound_bus/src/plain.rt', 'self.memory.put(addr, value);', 'if !writes_port(addr) {\n            self.memory.put(addr, value);\n        }'),
        ('lag_bus/src/lag.rt', '{1}    deferred.put(at, value);', '    if !writes_port(at) {\n        deferred.put(at, value);\n    }'),
        ('lag_bus/src/lag.rt', '{2}    deferred.put(at, value);', '    if !writes_port(at) {\n        deferred.put(at, value);\n    }')]),
    Mutant("a write of a timer's count stays out of memory", ['lock_step', 'sound_bus', 'lag_bus'], ['tests_programs'], [
        ('lock_step/specs/LockStep.antt', 'memory = with_byte m.memory at value', 'memory = if is_within 0xFA 0xFC at then m.memory else with_byte m.memory at value'),
        ('sound_bus/src/plain.rt', 'self.memory.put(addr, value);', 'if addr < 0xFA || addr > 0xFC {\n            self.memory.put(addr, value);\n        }'),
        ('lag_bus/src/lag.rt', '{1}    deferred.put(at, value);', '    if at < 0xFA || at > 0xFC {\n        deferred.put(at, value);\n    }'),
        ('lag_bus/src/lag.rt', '{2}    deferred.put(at, value);', '    if at < 0xFA || at > 0xFC {\n        deferred.put(at, value);\n    }')]),
    Mutant('a write above the ROM that shows is lost', ['lock_step', 'sound_bus', 'lag_bus'], ['tests_programs'], [
        ('lock_step/specs/LockStep.antt', 'memory = with_byte m.memory at value', 'memory = if nat_lt 0xFFBF at && io.answers_read m.io at then m.memory else with_byte m.memory at value'),
        ('sound_bus/src/plain.rt', 'self.memory.put(addr, value);', 'if addr < 0xFFC0 || self.io.read(addr).is_none() {\n            self.memory.put(addr, value);\n        }'),
        ('lag_bus/src/lag.rt', '                self.deferred.put(addr, value);', '                if addr < 0xFFC0 || self.time.read(addr).is_none() {\n                    self.deferred.put(addr, value);\n                }')]),

    # traces, and batches that are counted
    Mutant('the letters of registers and ports exchanged', ['trace_form'], ['tests_parts'], [
        (LINE, 'codes "R "', 'codes "Q "'), (LINE, 'codes "P "', 'codes "R "'), (LINE, 'codes "Q "', 'codes "P "'),
        (LINE_CODE, 'b"R "', 'b"Q "'), (LINE_CODE, 'b"P "', 'b"R "'), (LINE_CODE, 'b"Q "', 'b"P "')]),
    Mutant('another letter for a key on', ['trace_form'], ['tests_parts'], [
        (LINE, '(codes "k")', '(codes "K")'), (LINE_CODE, 'b"k"', 'b"K"')]),
    Mutant('the output before the level', ['trace_form'], ['tests_parts'], [
        (LINE, 'decimal level ++ codes " " ++ signed_decimal out', 'signed_decimal out ++ codes " " ++ decimal level'),
        (LINE_CODE, 'line.append_decimal(level);', 'line.append_decimal(voice + 0);'), (LINE_CODE, 'line.append_decimal(out);', 'line.append_decimal(level);'),
        (LINE_CODE, 'line.append_decimal(voice + 0);', 'line.append_decimal(out);')]),
    Mutant('the end of a block noted before the key on', ['trace_form'], ['tests_parts'], [
        (LINE, 'letter_or_dash keyed (codes "k") ++ letter_or_dash ended (codes "l")', 'letter_or_dash ended (codes "l") ++ letter_or_dash keyed (codes "k")'),
        (LINE_CODE, 'line.append_mark(keyed, b"k");\n            line.append_mark(ended, b"l");',
         'line.append_mark(ended, b"l");\n            line.append_mark(keyed, b"k");')]),
    Mutant("a port's byte before its number", ['trace_form'], ['tests_parts'], [
        (LINE, 'decimal port ++ codes " " ++ two_digits value', 'two_digits value ++ codes " " ++ decimal port'),
        (LINE_CODE, 'line.append_decimal(port);\n    line.append(b" ");\n    line.append_byte(value);',
         'line.append_byte(value);\n    line.append(b" ");\n    line.append_decimal(port);')]),
    Mutant('a ring of 255 events', ['trace_form', 'lag_bus'], ['tests_parts', 'tests_tunes'], [
        ('trace_form/src/ring.rt', 'EVENT_CAPACITY: usize = 256', 'EVENT_CAPACITY: usize = 255')]),
    Mutant("the echo's batches counted as the memory's", ['lag_bus'], ['tests_tunes'], [
        ('lag_bus/specs/Book.antt', 'echo = count_after counts.echo 1', 'memory = count_after counts.memory 1'),
        ('lag_bus/src/counting.rt', 'counts.echo = counts.echo.saturating_add(1)', 'counts.memory = counts.memory.saturating_add(1)')]),
    Mutant('a read is for the echo before it is for a register', ['lag_bus'], ['tests_tunes'], [
        ('lag_bus/specs/Book.antt', 'if at == 0xF3 && chip.is_result (dsp_address % 0x80) then Some Register\n    else if may_be_written reach at then Some Echo',
         'if may_be_written reach at then Some Echo\n    else if at == 0xF3 && chip.is_result (dsp_address % 0x80) then Some Register'),
        ('lag_bus/src/deferred_chip.rt', 'if at == 0xF3 && self.chip.is_result(dsp_address % 0x80) {\n            Some(Cause::Register)\n'
         '        } else if self.is_written(at) {\n            Some(Cause::Echo)\n',
         'if self.is_written(at) {\n            Some(Cause::Echo)\n'
         '        } else if at == 0xF3 && self.chip.is_result(dsp_address % 0x80) {\n            Some(Cause::Register)\n')]),

    # rates, noise, timers and ports
    Mutant('rate 1 fires every 1,024 samples', ['rate_clock'], ['tests_parts'], [
        (COUNTER, '0 ∷ 2048 ∷ 1536', '0 ∷ 1024 ∷ 1536'), (CLOCK, '0, 2048, 1536', '0, 1024, 1536'), (CLOCK, '0, 2047, 511', '0, 1023, 511')]),
    Mutant('rate 30 fires every sample', ['rate_clock'], ['tests_parts'], [
        (COUNTER, '3 ∷ 2 ∷ 1 ∷ []', '3 ∷ 1 ∷ 1 ∷ []'), (CLOCK, '4, 3, 2, 1,', '4, 3, 1, 1,'), (CLOCK, '0, 3, 0, 1, 0,', '0, 3, 0, 0, 0,')]),
    Mutant('the noise begins at 2000h', ['rate_clock'], ['tests_parts'], [
        (NOISE, 'noise_at zero = 0x4000', 'noise_at zero = 0x2000'), (NOISE_CODE, 'Noise { value: 0x4000 }', 'Noise { value: 0x2000 }')]),
    Mutant('the noise looks at its bits 0 and 2', ['rate_clock'], ['tests_parts'], [
        (NOISE, 'n % 2 == n / 2 % 2', 'n % 2 == n / 4 % 2'), (NOISE_CODE, '(n ^ (n >> 1))', '(n ^ (n >> 2))')]),
    Mutant('an offset of 563 for the periods by five', ['rate_clock'], ['tests_parts'], [
        (COUNTER, OFFSETS, OFFSETS.replace('536', '563')), (CLOCK, OFFSETS_CODE, OFFSETS_CODE.replace('536', '563')),
        (CLOCK, 'FIFTHS: u16 = 536', 'FIFTHS: u16 = 563'), (CLOCK, 'fifths: 1,', 'fifths: 3,')]),
    Mutant('timer 2 ticks every 32 cycles', ['ports_timers'], ['tests_parts'], [
        (IO, '(is_enabled 2 io.control) 16 clock', '(is_enabled 2 io.control) 32 clock'), (IO_CODE, 'has_bit(control, 2), 16,', 'has_bit(control, 2), 32,')]),
    Mutant('timer 1 ticks every 64 cycles', ['ports_timers'], ['tests_parts'], [
        (IO, '(is_enabled 1 io.control) 128 clock', '(is_enabled 1 io.control) 64 clock'), (IO_CODE, 'has_bit(control, 1), 128,', 'has_bit(control, 1), 64,')]),
    Mutant('output counters of three bits', ['ports_timers'], ['tests_parts'], [
        (TIMER, '(timer.output + 1) % 16', '(timer.output + 1) % 8'), (TIMER_CODE, 'timer.output.wrapping_add(1) % 16', 'timer.output.wrapping_add(1) % 8')]),
    Mutant('bits 4 and 5 of the control exchanged', ['ports_timers'], ['tests_parts'], [
        (IO, 'has_bit value 4', 'has_bit value 6'), (IO, 'has_bit value 5', 'has_bit value 4'), (IO, 'has_bit value 6', 'has_bit value 5'),
        (IO_CODE, 'has_bit(value, 4)', 'has_bit(value, 6)'), (IO_CODE, 'has_bit(value, 5)', 'has_bit(value, 4)'), (IO_CODE, 'has_bit(value, 6)', 'has_bit(value, 5)')]),
    Mutant('bit 6 shows the ROM', ['ports_timers'], ['tests_parts'], [
        (IO, 'has_bit control 7', 'has_bit control 6'), (IO_CODE, 'has_bit(self.control, 7)', 'has_bit(self.control, 6)')]),
    Mutant('the targets of timers 0 and 1 exchanged', ['ports_timers'], ['tests_parts'], [
        (IO, 'at == 0xFA then', 'at == 0xFE then'), (IO, 'at == 0xFB then', 'at == 0xFA then'), (IO, '{3}at == 0xFE then', 'at == 0xFB then'),
        (IO_CODE, '0xFA => self.timer0', '0xFB => self.timer0'), (IO_CODE, '0xFB => self.timer1', '0xFA => self.timer1')]),
    Mutant('the targets of timers 1 and 2 exchanged', ['ports_timers'], ['tests_parts'], [
        (IO, 'at == 0xFB then record io { timer1', 'at == 0xFC then record io { timer1'), (IO, 'at == 0xFC then record io { timer2', 'at == 0xFB then record io { timer2'),
        (IO_CODE, '0xFB => self.timer1', '0xFC => self.timer1'), (IO_CODE, '0xFC => self.timer2', '0xFB => self.timer2')]),
    Mutant('the bits of timers 0 and 1 in the control exchanged', ['ports_timers'], ['tests_parts'], [
        (IO, 'io.control value 0 io.timer0', 'io.control value 1 io.timer0'), (IO, 'io.control value 1 io.timer1', 'io.control value 0 io.timer1'),
        (IO, 'timer0 = after_cycles (is_enabled 0', 'timer0 = after_cycles (is_enabled 1'), (IO, 'timer1 = after_cycles (is_enabled 1', 'timer1 = after_cycles (is_enabled 0'),
        (IO_CODE, '(old, value, 0, self.timer0)', '(old, value, 1, self.timer0)'), (IO_CODE, '(old, value, 1, self.timer1)', '(old, value, 0, self.timer1)'),
        (IO_CODE, 'self.timer0\n            .pass(has_bit(control, 0)', 'self.timer0\n            .pass(has_bit(control, 1)'),
        (IO_CODE, 'self.timer1\n            .pass(has_bit(control, 1)', 'self.timer1\n            .pass(has_bit(control, 0)'),
        (ZEROS, '(is_enabled 0 io.control) 128 clock cycles io.timer0', '(is_enabled 1 io.control) 128 clock cycles io.timer0'),
        (ZEROS, '(is_enabled 1 io.control) 128 clock cycles io.timer1', '(is_enabled 0 io.control) 128 clock cycles io.timer1'),
        (ZEROS_CODE, 'io.timer0, has_bit(io.control, 0)', 'io.timer0, has_bit(io.control, 1)'),
        (ZEROS_CODE, 'io.timer1, has_bit(io.control, 1)', 'io.timer1, has_bit(io.control, 0)')]),
    Mutant('a read leaves an output counter as it is', ['ports_timers'], ['tests_parts'], [
        (TIMER, 'after_output_read timer = record timer { output = 0 }', 'after_output_read timer = timer'),
        (IO_CODE, 'std::mem::replace(&mut self.timer0.output, 0)', 'self.timer0.output'), (IO_CODE, 'std::mem::replace(&mut self.timer1.output, 0)', 'self.timer1.output'),
        (IO_CODE, 'std::mem::replace(&mut self.timer2.output, 0)', 'self.timer2.output')]),
    Mutant('a write of FDh clears the output counter', ['ports_timers'], ['tests_parts'], [
        (IO, '    else if at == 0xFA then record io', '    else if at == 0xFD then record io { timer0 = after_output_read io.timer0 }\n    else if at == 0xFA then record io'),
        (IO_CODE, '            0xFA => self.timer0.target = value,', '            0xFD => self.timer0.output = 0,\n            0xFA => self.timer0.target = value,')]),
    Mutant('a write of F7h goes to no output latch', ['ports_timers'], ['tests_parts'], [
        (IO, 'is_within 0xF4 0xF7 at then record', 'is_within 0xF4 0xF6 at then record'), (IO_CODE, '0xF4..=0xF7 => self.output', '0xF4..=0xF6 => self.output')]),
    Mutant('timer 1 starts anew where timer 0 is enabled', ['ports_timers'], ['tests_parts'], [
        (IO, 'io.control value 1 io.timer1', 'io.control value 0 io.timer1'), (IO_CODE, '(old, value, 1, self.timer1)', '(old, value, 0, self.timer1)')]),
    Mutant('a timer starts anew unless it stays enabled', ['ports_timers'], ['tests_parts'], [
        (IO, 'if not (is_enabled index old) && is_enabled index new then', 'if not (is_enabled index old && is_enabled index new) then'),
        (IO_CODE, 'if !has_bit(old, index) && has_bit(new, index) {', 'if !(has_bit(old, index) && has_bit(new, index)) {')]),
    Mutant('a timer counts while it is disabled', ['ports_timers'], ['tests_parts'], [
        (TIMER, 'clock cycles) timer else timer', 'clock cycles) timer else after_ticks (tick_count period clock cycles) timer'),
        (TIMER_CODE, '        if enabled {', '        if enabled || cycles > 0 {')]),
    Mutant('a target below the inner counter is met at the next tick', ['ports_timers'], ['tests_parts'], [
        (TIMER, 'if inner == timer.target\n', 'if (inner == timer.target) || (nat_lt 0 timer.target && nat_lt timer.target inner)\n'),
        (TIMER, '◌==◌, Bool,', '◌==◌, Bool, ◌&&◌, ◌||◌, nat_lt,'),
        (ZEROS, 'ticks_to_count timer = (timer', 'ticks_to_count timer = if nat_lt 0 timer.target && nat_lt timer.target (timer.inner + 1) then 1 else (timer'),
        (TIMER_CODE, '    u64::from(timer.target.wrapping_sub(timer.inner).wrapping_sub(1)) + 1\n',
         '    if timer.target > 0 && timer.inner >= timer.target {\n        return 1;\n    }\n'
         '    u64::from(timer.target.wrapping_sub(timer.inner).wrapping_sub(1)) + 1\n')]),
    Mutant('input latches 0 and 1 exchanged at the opening', ['ports_timers'], ['tests_parts'], [
        (IO, 'cell 0xF4 ∷ cell 0xF5', 'cell 0xF5 ∷ cell 0xF4'), (IO_CODE, 'cells[0x4], cells[0x5]', 'cells[0x5], cells[0x4]')]),
    Mutant('a write of a port goes to its input latch', ['ports_timers'], ['tests_parts'], [
        (IO, 'output = slice_set io.output (at - 0xF4) value', 'input = slice_set io.input (at - 0xF4) value'),
        (IO_CODE, 'self.output[usize::from(addr) - 0xF4] = value', 'self.input[usize::from(addr) - 0xF4] = value')]),
    Mutant('a read of F1h gives the control', ['ports_timers'], ['tests_parts'], [
        (IO, 'if at == 0xF2 then Some io.dsp_address', 'if at == 0xF1 then Some io.control\n    else if at == 0xF2 then Some io.dsp_address'),
        (IO_CODE, '0xF0 | 0xF1 | 0xFA..=0xFC => Some(0)', '0xF1 => Some(self.control),\n            0xF0 | 0xFA..=0xFC => Some(0)')]),

    # envelopes
    Mutant('the fastest attack rises by 200h', ['envelope', 'envelope_laws'], ['tests_parts'], [
        (ENVELOPE, 'then 0x400 else 0x20', 'then 0x200 else 0x20'), (TARGET, '{ 0x400 } else', '{ 0x200 } else')]),
    Mutant('decay at rates two lower', ['envelope', 'envelope_laws'], ['tests_parts'], [
        (ENVELOPE, '% 8) + 0x10', '% 8) + 0x0E'), (TARGET, '% 8) + 0x10', '% 8) + 0x0E')]),
    Mutant('the bend at 500h', ['envelope', 'envelope_laws'], ['tests_parts'], [
        (ENVELOPE, 'int_lt hidden (pos 0x600)', 'int_lt hidden (pos 0x500)'), (TARGET, 'hidden < 0x600', 'hidden < 0x500')]),
    Mutant('a fixed gain eight times its number', ['envelope', 'envelope_laws'], ['tests_parts'], [
        (ENVELOPE, 'pos (16 * gain)', 'pos (8 * gain)'), (TARGET, 'i32::from(gain) * 16', 'i32::from(gain) * 8')]),
    Mutant('a fall by a 128th', ['envelope', 'envelope_laws'], ['tests_parts'], [
        (ENVELOPE, 'floor_shift e 8', 'floor_shift e 7'), (TARGET, 'less >> 8', 'less >> 7')]),
    Mutant('a release by 16', ['envelope', 'envelope_laws'], ['tests_parts'], [
        (ENVELOPE, 's.level - 8', 's.level - 16'), (ENVELOPE_CODE, 'RELEASE_FALL: u16 = 8', 'RELEASE_FALL: u16 = 16')]),
    Mutant('an attack of three bits', ['envelope', 'envelope_laws'], ['tests_parts'], [
        (ENVELOPE, '(adsr1 % 16) + 1', '(adsr1 % 8) + 1'), (TARGET, '(adsr1 % 16) + 1', '(adsr1 % 8) + 1')]),
    Mutant('a decay of two bits', ['envelope', 'envelope_laws'], ['tests_parts'], [
        (ENVELOPE, 'adsr1 / 16 % 8', 'adsr1 / 16 % 4'), (TARGET, 'adsr1 / 16 % 8', 'adsr1 / 16 % 4')]),
    Mutant('a sustain level of two bits', ['envelope', 'envelope_laws'], ['tests_parts'], [
        (ENVELOPE, '(if gain_rules adsr1 then gain else adsr2) / 32', '(if gain_rules adsr1 then gain else adsr2) / 64'),
        (TARGET, '{ gain / 32 } else { adsr2 / 32 }', '{ gain / 64 } else { adsr2 / 64 }')]),
    Mutant('the two falls of GAIN exchanged', ['envelope', 'envelope_laws'], ['tests_parts'], [
        (ENVELOPE, 'if kind == 0 then pos level -ℤ pos 0x20\n    else if kind == 1', 'if kind == 1 then pos level -ℤ pos 0x20\n    else if kind == 0'),
        (TARGET, 'if kind == 0 {\n        from - 0x20\n    } else if kind == 1', 'if kind == 1 {\n        from - 0x20\n    } else if kind == 0')]),
    Mutant('the bent rise by 4 from its bend on', ['envelope', 'envelope_laws'], ['tests_parts'], [
        (ENVELOPE, 'then 0x20 else 8)', 'then 0x20 else 4)'), (TARGET, 'from + 8', 'from + 4')]),
    Mutant('decay ends by the bits of ADSR2 under GAIN, too', ['envelope', 'envelope_laws'], ['tests_parts'], [
        (ENVELOPE, '(if gain_rules adsr1 then gain else adsr2) / 32', 'adsr2 / 32'), (TARGET, 'if adsr1 < ADSR { gain / 32 } else { adsr2 / 32 }', 'adsr2 / 32')]),
    Mutant('GAIN rules only where bits 7 and 6 of ADSR1 are clear', ['envelope', 'envelope_laws'], ['tests_parts'], [
        (ENVELOPE, 'nat_lt adsr1 0x80', 'nat_lt adsr1 0x40'), (TARGET, 'ADSR: u8 = 0x80', 'ADSR: u8 = 0x40')]),
    Mutant('mode and hidden value change only where the rate fires', ['envelope', 'envelope_laws'], ['tests_parts'], [
        (ENVELOPE, 'mode = next_mode s.mode target.value sustain;', 'mode = if fires target.rate counter then next_mode s.mode target.value sustain else s.mode;'),
        (ENVELOPE, 'hidden = target.value;', 'hidden = if fires target.rate counter then target.value else s.hidden;'),
        (ENVELOPE_CODE, '                self.mode = next_mode(self.mode, target.value, sustain_level(adsr1, adsr2, gain));\n                self.hidden = target.value;\n'
         '                if clock.fires(target.rate) {\n',
         '                if clock.fires(target.rate) {\n                    self.mode = next_mode(self.mode, target.value, sustain_level(adsr1, adsr2, gain));\n'
         '                    self.hidden = target.value;\n')]),
    Mutant('an attack goes on below 0', ['envelope', 'envelope_laws'], ['tests_parts'], [
        (ENVELOPE, 'not (int_lt value (pos 0)) && not (int_lt (pos 0x7ff) value)', 'not (int_lt (pos 0x7ff) value)'), (ENVELOPE, 'Bool, ◌&&◌, not', 'Bool, not'),
        (ENVELOPE_CODE, 'value < 0 || value > 0x7ff', 'value > 0x7ff')]),
    Mutant('an attack ends above 7F0h', ['envelope', 'envelope_laws'], ['tests_parts'], [
        (ENVELOPE, 'not (int_lt (pos 0x7ff) value)', 'not (int_lt (pos 0x7f0) value)'), (ENVELOPE_CODE, 'value < 0 || value > 0x7ff', 'value < 0 || value > 0x7f0')]),

    # BRR and interpolation
    Mutant('filter 1 takes a 16th', ['brr_decode'], ['tests_parts'], [
        (KEPT, 'scaled p1 (neg_ℤ (pos 1)) 5', 'scaled p1 (neg_ℤ (pos 1)) 4'),
        (DIGIT, 'scaled p1 (neg_ℤ (pos 1)) 5', 'scaled p1 (neg_ℤ (pos 1)) 4'), (DIGIT, 'scaled(p1, -1, 5)', 'scaled(p1, -1, 4)')]),
    Mutant('great shifts leave 1024', ['brr_decode'], ['tests_parts'], [
        (KEPT, 'neg_ℤ (pos 2048)', 'neg_ℤ (pos 1024)'), (DIGIT, '-2048', '-1024')]),
    Mutant('loop bit and end bit exchanged', ['brr_decode'], ['tests_parts'], [
        (HEADER, 'has_loop header = has_bit header 1', 'has_loop header = has_bit header 0'),
        (HEADER, 'has_end header = has_bit header 0', 'has_end header = has_bit header 1'),
        (DIGIT, 'has_bit(header, 0)', 'has_bit(header, 2)'), (DIGIT, 'has_bit(header, 1)', 'has_bit(header, 0)'), (DIGIT, 'has_bit(header, 2)', 'has_bit(header, 1)')]),
    Mutant('the low digit of a byte first', ['brr_decode'], ['tests_parts'], [
        (KEPT, 'value = sign4 (byte / 0x10) } ∷ record { header = header; value = sign4 byte }', 'value = sign4 byte } ∷ record { header = header; value = sign4 (byte / 0x10) }'),
        (BLOCK, 'digit(b0 / 16)', 'digit(b0 / 1)'), (BLOCK, 'digit(b0))', 'digit(b0 / 16))'),
        (BLOCK, 'digit(b1 / 16)', 'digit(b1 / 1)'), (BLOCK, 'digit(b1))', 'digit(b1 / 16))')]),
    Mutant('the filter in bits 2 and 1 of a header', ['brr_decode', 'brr_encode'], ['tests_parts'], [
        (HEADER, 'header / 4 % 4', 'header / 2 % 4'), (DIGIT, 'header / 4 % 4', 'header / 2 % 4')]),
    Mutant('a shift of 13', ['brr_decode'], ['tests_parts'], [
        (KEPT, 'nat_le shift 12', 'nat_le shift 13'), (DIGIT, 'shift <= 12', 'shift <= 13'), (DIGIT, 'shift ≤ 12', 'shift ≤ 13')]),
    Mutant('filter 2 takes 5 64ths', ['brr_decode'], ['tests_commands', 'tests_tunes'], [
        (KEPT, 'scaled p1 (neg_ℤ (pos 3)) 6', 'scaled p1 (neg_ℤ (pos 5)) 6'), (DIGIT, 'scaled(p1, -3, 6)', 'scaled(p1, -5, 6)'),
        (DIGIT, '{1}scaled p1 (neg_ℤ (pos 3)) 6', 'scaled p1 (neg_ℤ (pos 5)) 6'), (DIGIT, 'scaled p1 (neg_ℤ (pos 3)) 6', 'scaled p1 (neg_ℤ (pos 5)) 6')]),
    Mutant('filter 3 takes 11 128ths', ['brr_decode'], ['tests_tunes'], [
        (KEPT, 'scaled p1 (neg_ℤ (pos 13)) 7', 'scaled p1 (neg_ℤ (pos 11)) 7'), (DIGIT, 'scaled(p1, -13, 7)', 'scaled(p1, -11, 7)'),
        (DIGIT, '{1}scaled p1 (neg_ℤ (pos 13)) 7', 'scaled p1 (neg_ℤ (pos 11)) 7'), (DIGIT, 'scaled p1 (neg_ℤ (pos 13)) 7', 'scaled p1 (neg_ℤ (pos 11)) 7')]),
    Mutant('the double of a sum is limited, too', ['brr_decode'], ['tests_parts'], [
        (KEPT, 'wrap16 (pos 2 *ℤ clamp16', 'clamp16 (pos 2 *ℤ clamp16'), (KEPT, 'scaled, wrap16, clamp16', 'scaled, clamp16'),
        (DIGIT, 'wrap16 (pos 2 *ℤ clamp16', 'clamp16 (pos 2 *ℤ clamp16'), (DIGIT, 'wrap16 (pos 2 *ℤ number)', 'clamp16 (pos 2 *ℤ number)'),
        (DIGIT, 'wrap16(2 * i32::from(number))', 'clamp16(2 * i32::from(number))'),
        (DIGIT, 'Arithmetic.{clamp16, scaled, wrap16}', 'Arithmetic.{clamp16, scaled}'), (DIGIT, 'has_bit, scaled, wrap16}', 'has_bit, scaled}')]),
    Mutant('the older weights exchanged', ['gauss_table'], ['tests_parts'], [
        (MIX, 'number_at table (255 - i)', 'number_at table (510 - i)'), (MIX, 'number_at table (511 - i)', 'number_at table (255 - i)'), (MIX, 'number_at table (510 - i)', 'number_at table (511 - i)'),
        (QUAD, 'weights[255 - place]', 'weights[510 - place]'), (QUAD, 'weights[511 - place]', 'weights[255 - place]'), (QUAD, 'weights[510 - place]', 'weights[511 - place]')]),
    Mutant('the outer weights exchanged', ['gauss_table'], ['tests_parts'], [
        (MIX, '(number_at table (255 - i)) x0', '(number_at table i) x0'), (MIX, '(number_at table i) x3', '(number_at table (255 - i)) x3'),
        ('gauss_table/specs/Quads.antt', 'oldest = number_at table (255 - i)', 'oldest = number_at table i'),
        ('gauss_table/specs/Quads.antt', 'newest = number_at table i', 'newest = number_at table (255 - i)'),
        (QUAD, 'oldest: weights[255 - place]', 'oldest: weights[place]'), (QUAD, 'newest: weights[place]', 'newest: weights[255 - place]')]),
    Mutant('weights over 1,024', ['gauss_table'], ['tests_parts'], [
        (MIX, 'scaled weight sample 11', 'scaled weight sample 10'), (TAPS, 'scaled(weight, sample, 11)', 'scaled(weight, sample, 10)')]),

    # the echo and the registers of the S-DSP
    Mutant('mute by bit 7 of FLG', ['echo_unit'], ['tests_sounds'], [
        (FLG, 'has_bit flg 6', 'has_bit flg 7'), (FLG_CODE, 'has_bit(flg, 6)', 'has_bit(flg, 7)')]),
    Mutant('echo writes by bit 4 of FLG', ['echo_unit'], ['tests_sounds'], [
        (FLG, 'has_bit flg 5', 'has_bit flg 4'), (FLG_CODE, 'has_bit(flg, 5)', 'has_bit(flg, 4)')]),
    Mutant('no echo writes while the output is mute', ['echo_unit'], ['tests_sounds'], [
        (FLG, 'not (has_bit flg 5)', 'not (has_bit flg 5) && not (has_bit flg 6)'), (FLG, '{ℕ, Bool, not}', '{ℕ, Bool, ◌&&◌, not}'),
        (FLG_CODE, '!has_bit(flg, 5)', '!has_bit(flg, 5) && !has_bit(flg, 6)')]),
    Mutant('the soft reset mutes the output', ['echo_unit'], ['tests_sounds'], [
        (FLG, 'is_muted flg = has_bit flg 6', 'is_muted flg = has_bit flg 6 || has_bit flg 7'), (FLG, '{ℕ, Bool, not}', '{ℕ, Bool, ◌||◌, not}'),
        (FLG_CODE, '    has_bit(flg, 6)', '    has_bit(flg, 6) || has_bit(flg, 7)')]),
    Mutant("a voice's right volume without a sign", ['dsp_state'], ['tests_sounds'], [
        (VOLUMES, 'sign8 (voice_register registers v VOLR)', 'pos (voice_register registers v VOLR)'),
        (VOLUMES_CODE, 'sign8(voice_register(registers, v, VOLR)) as i16', 'i16::from(voice_register(registers, v, VOLR))')]),
    Mutant('OUTX without the sign of the output', ['num_fix', 'voice_unit', 'voice_batch'], ['tests_sounds'], [
        ('num_fix/specs/Arithmetic.antt', 'high_byte z = unsigned_abs (int_rem_euclid (floor_shift z 8) (pos 256))', 'high_byte z = unsigned_abs z / 0x100'),
        (LEVEL, '(out >> 8).rem_euclid(0x100) as u8', '((if out < 0 { 0 - out as i32 } else { out as i32 }) >> 8) as u8')]),
    Mutant('a register is written by an address from 80h on', ['dsp_state', 'dsp_core'], ['tests_sounds'], [
        (OUTSIDE, 'if nat_le 0x80 address then s\n    else record s', 'record s'), (OUTSIDE, '◌==◌, nat_le,', '◌==◌,'),
        (OUTSIDE, 'slice_set s.registers address (if address == ENDX', 'slice_set s.registers (address % 0x80) (if address % 0x80 == ENDX'),
        (OUTSIDE, 'if address == KON', 'if address % 0x80 == KON'),
        (DSP_CODE, '        if addr >= 0x80 {\n            return;\n        }\n        self.fresh', '        self.fresh'),
        (DSP_CODE, 'let place = usize::from(addr);', 'let place = usize::from(addr % 0x80);')]),
    Mutant('a block without an end bit sets its bit of ENDX, too', ['voice_unit', 'voice_batch'], ['tests_sounds'], [
        (VOICE, 'is_at_last_group v && has_end header', 'is_at_last_group v'),
        ('voice_batch/specs/Row.antt', 'at.offset == 7 && has_end (byte_at memory at.block)', 'at.offset == 7'),
        ('voice_batch/src/span_plan.rt', 'if has_end(last.header) {', 'if true {'),
        (VOICE_CODE, 'self.offset == LAST_GROUP && has_end(header)', 'self.offset == LAST_GROUP')]),
    Mutant('a key on looks at the header of the block before it', ['voice_unit', 'voice_batch'], ['tests_sounds'], [
        (VOICE, 'if v.delay == 5 then 0 else byte_at memory v.block', 'byte_at memory v.block'),
        (VOICE_CODE, 'match self.delay {\n            KEY_ON_DELAY => 0,\n            _ => memory.get(self.block),\n        }', 'memory.get(self.block)')]),
    Mutant('a key off is taken in each sample', ['voice_unit', 'voice_batch'], ['tests_sounds'], [
        (VOICE, 'if i.poll && i.koff then', 'if i.koff then'), (VOICE_CODE, 'if input.poll && input.koff {', 'if input.koff {')]),
    Mutant('a directory of one page', ['voice_unit'], ['tests_sounds'], [
        (DIRECTORY, '(dir * 0x100 + srcn * 4) % 0x10000', 'dir * 0x100 + srcn * 4 % 0x100'),
        (DIRECTORY_CODE, '.wrapping_add(u16::from(srcn) << 2)', '.wrapping_add((u16::from(srcn) << 2) % 0x100)')]),
    Mutant("a voice's volumes exchanged", ['dsp_state'], ['tests_sounds', 'tests_renders'], [
        (REGISTERS, 'VOLL: usize = 0;', 'VOLL: usize = 1;'), (REGISTERS, 'VOLR: usize = 1;', 'VOLR: usize = 0;')]),
    Mutant("the echo's volumes exchanged", ['dsp_state'], ['tests_sounds', 'tests_renders'], [
        (REGISTERS, 'EVOLL: usize = 0x2c', 'EVOLL: usize = 0x3c'), (REGISTERS, 'EVOLR: usize = 0x3c', 'EVOLR: usize = 0x2c')]),
    Mutant('the main volumes exchanged', ['dsp_state'], ['tests_sounds', 'tests_renders'], [
        (REGISTERS, 'MVOLL: usize = 0x0c', 'MVOLL: usize = 0x1c'), (REGISTERS, 'MVOLR: usize = 0x1c', 'MVOLR: usize = 0x0c')]),
    Mutant('ESA and EDL exchanged', ['dsp_state'], ['tests_sounds', 'tests_renders'], [
        (REGISTERS, 'ESA: usize = 0x6d', 'ESA: usize = 0x7d'), (REGISTERS, 'EDL: usize = 0x7d', 'EDL: usize = 0x6d')]),
    Mutant('KON and KOFF exchanged', ['dsp_state'], ['tests_sounds', 'tests_renders'], [
        (REGISTERS, 'KON: usize = 0x4c', 'KON: usize = 0x5c'), (REGISTERS, 'KOFF: usize = 0x5c', 'KOFF: usize = 0x4c')]),
    Mutant('PMON and NON exchanged', ['dsp_state'], ['tests_sounds', 'tests_renders', 'tests_tunes'], [
        (REGISTERS, 'PMON: usize = 0x2d', 'PMON: usize = 0x3d'), (REGISTERS, 'NON: usize = 0x3d', 'NON: usize = 0x2d')]),
    Mutant('ENVX and OUTX exchanged', ['dsp_state'], ['tests_sounds', 'tests_renders'], [
        (REGISTERS, 'ENVX: usize = 8', 'ENVX: usize = 9'), (REGISTERS, 'OUTX: usize = 9', 'OUTX: usize = 8')]),
    Mutant('ENDX and EDL exchanged', ['dsp_state'], ['tests_sounds', 'tests_renders'], [
        (REGISTERS, 'ENDX: usize = 0x7c', 'ENDX: usize = 0x7d'), (REGISTERS, 'EDL: usize = 0x7d', 'EDL: usize = 0x7c')]),
    Mutant('EFB and EON exchanged', ['dsp_state'], ['tests_tunes'], [
        (REGISTERS, 'EFB: usize = 0x0d', 'EFB: usize = 0x4d'), (REGISTERS, 'EON: usize = 0x4d', 'EON: usize = 0x0d')]),
    Mutant('DIR and ESA exchanged', ['dsp_state'], ['tests_sounds', 'tests_renders'], [
        (REGISTERS, 'DIR: usize = 0x5d', 'DIR: usize = 0x6d'), (REGISTERS, 'ESA: usize = 0x6d', 'ESA: usize = 0x5d')]),
    Mutant('soft reset by bit 6 of FLG', ['dsp_state'], ['tests_sounds'], [
        (CHIP, 'has_bit flg 7', 'has_bit flg 6'), (REGISTERS, 'has_bit(flg, 7)', 'has_bit(flg, 6)')]),
    Mutant('a noise rate of four bits', ['dsp_state'], ['tests_tunes'], [
        (CHIP, 'flg % 32', 'flg % 16'), ('dsp_state/src/settings.rt', 'flg % 32', 'flg % 16')]),
    Mutant("the filter's coefficients in reverse", ['dsp_state'], ['tests_sounds'], [
        (CHIP, '16 * i + FIR', '16 * (7 - i) + FIR'), (CHIP, '{ℕ, ◌+◌, ◌*◌,', '{ℕ, ◌+◌, ◌-◌, ◌*◌,'),
        (REGISTERS, '16 * i + FIR', '16 * (7 - i) + FIR'), (REGISTERS, '◌+◌, ◌*◌, map', '◌+◌, ◌-◌, ◌*◌, map'),
        (REGISTERS, 'r[0x0f], r[0x1f], r[0x2f], r[0x3f], r[0x4f], r[0x5f], r[0x6f], r[0x7f]',
         'r[0x7f], r[0x6f], r[0x5f], r[0x4f], r[0x3f], r[0x2f], r[0x1f], r[0x0f]')]),
    Mutant('bit 7 mutes voice 0', ['dsp_state', 'mute_laws'], ['tests_sounds', 'tests_tunes'], [
        (VOLUMES, 'has_bit muted v', 'has_bit muted (7 - v)'), (VOLUMES, 'Prelude.{ℕ, List', 'Prelude.{ℕ, ◌-◌, List'),
        (VOLUMES_CODE, 'has_bit(muted, v)', 'has_bit(muted, 7 - v)')]),
    Mutant('bit 7 of a mask stands for voice 0', ['chip_form'], ['tests_sounds', 'tests_tunes'], [
        ('chip_form/specs/Samples.antt', 'has_bit mask voice', 'has_bit mask (7 - voice)'), ('batch_rows/src/records.rt', 'has_bit(mask, v)', 'has_bit(mask, 7 - v)')]),
    Mutant('a pitch of 13 bits', ['dsp_state'], ['tests_sounds'], [
        (CHIP, '% 0x4000;', '% 0x2000;'), ('dsp_state/specs/Settings.antt', 'n % 0x4000 < 0x4000', 'n % 0x2000 < 0x4000'), (REGISTERS, '(high % 0x40)', '(high % 0x20)')]),
    Mutant('a pitch of more than 14 bits limited', ['dsp_state'], ['tests_sounds'], [
        (CHIP, 'pitch = (voice_register registers v PITCHL + 0x100 * voice_register registers v PITCHH) % 0x4000;',
         'pitch = min 0x3FFF (voice_register registers v PITCHL + 0x100 * voice_register registers v PITCHH);'),
        (CHIP, 'Prelude.{ℕ, ◌+◌,', 'Prelude.{ℕ, min, ◌+◌,'),
        ('dsp_state/specs/Settings.antt', 'n % 0x4000 < 0x4000', 'min 0x3FFF n < 0x4000'), ('dsp_state/specs/Settings.antt', '◌%◌, ◌<◌,', 'min, ◌<◌,'),
        (REGISTERS, 'low + 0x100 * (high % 0x40)', '(low + 0x100 * high).min(0x3fff)')]),
    Mutant('a write of KON adds to what is pending', ['dsp_state', 'dsp_core'], ['tests_sounds'], [
        (OUTSIDE, 'then byte else s.hidden.kon_pending', 'then bit_or byte s.hidden.kon_pending else s.hidden.kon_pending'), (OUTSIDE, 'ℤ, replicate,', 'ℤ, bit_or, replicate,'),
        (DSP_CODE, 'self.state.hidden.kon_pending = value', 'self.state.hidden.kon_pending |= value')]),
    Mutant('a write of ENDX stores its byte', ['dsp_state', 'dsp_core'], ['tests_sounds'], [
        (OUTSIDE, '(if address == ENDX then 0 else byte)', '(if address == ENDX then byte else byte)'), (DSP_CODE, 'if place == ENDX { 0 } else { value }', 'if place == ENDX { value } else { value }')]),
    Mutant('a key on leaves its bit of ENDX', ['dsp_state', 'batch_rows'], ['tests_sounds'], [
        (RESULTS, '(bits_from (λ answer. answer.keyed) 0 answers)', '0'), (RESULTS_CODE, 'without_bits (bit_or endx ended) keyed', 'without_bits (bit_or endx ended) (0 * keyed)'),
        (RESULTS_CODE, '(endx | ended) & (0xff - keyed)', '(endx | ended) & (0xff - 0 * keyed)')]),
    Mutant('ENDX loses the voices that are keyed before it gains others', ['dsp_state', 'batch_rows'], ['tests_sounds'], [
        (RESULTS, 'without_bits (bit_or endx (bits_from (λ answer. answer.ended) 0 answers)) (bits_from (λ answer. answer.keyed) 0 answers)',
         'bit_or (without_bits endx (bits_from (λ answer. answer.keyed) 0 answers)) (bits_from (λ answer. answer.ended) 0 answers)'),
        (RESULTS_CODE, 'without_bits (bit_or endx ended) keyed', 'bit_or (without_bits endx keyed) ended'), (RESULTS_CODE, '(endx | ended) & (0xff - keyed)', '(endx & (0xff - keyed)) | ended')]),

    # voices
    Mutant('a delay of four after a key on', ['voice_unit', 'voice_batch'], ['tests_sounds'], [
        (VOICE, 'v.delay == 5 then 0', 'v.delay == 4 then 0'), (VOICE, 'v.delay == 5 then start', 'v.delay == 4 then start'),
        (VOICE, 'v.delay == 5 then 1', 'v.delay == 4 then 1'), (VOICE, 'is_keyed i then 5', 'is_keyed i then 4'), (VOICE_CODE, 'KEY_ON_DELAY: u8 = 5', 'KEY_ON_DELAY: u8 = 4')]),
    Mutant('keys polled at odd samples', ['dsp_state', 'batch_rows'], ['tests_sounds'], [
        ('dsp_state/specs/Sample.antt', 'k % 2 == 0', 'k % 2 == 1'), (KEYS, 'number % 2 == 0', 'number % 2 == 1'), (KEYS, 'j % 2 == odd', 'j % 2 != odd')]),
    Mutant('the loop word before the start word', ['voice_unit'], ['tests_sounds'], [
        (DIRECTORY, '{1}word_at memory (entry_address dir srcn)', 'word_at memory ((entry_address dir srcn + 2) % 0x10000)'),
        (DIRECTORY, '{2}word_at memory ((entry_address dir srcn + 2) % 0x10000)', 'word_at memory (entry_address dir srcn)'),
        (DIRECTORY_CODE, '{1}memory.word(entry_address(dir, srcn)', 'memory.word(entry_address(dir, srcn).wrapping_add(2)'),
        (DIRECTORY_CODE, '{2}memory.word(entry_address(dir, srcn).wrapping_add(2)', 'memory.word(entry_address(dir, srcn)')]),
    Mutant('a pitch modulated by 16ths of an output', ['voice_unit', 'voice_batch'], ['tests_sounds'], [
        (VOICE, '(floor_shift previous 5) (pos pitch) 10', '(floor_shift previous 4) (pos pitch) 11'),
        (LEVEL, '(floor_shift previous 5) (pos pitch) 10', '(floor_shift previous 4) (pos pitch) 11'),
        (LEVEL, 'scaled(previous >> 5, pitch as i16, 10)', 'scaled(previous >> 4, pitch as i16, 11)'), ('voice_batch/src/span_phases.rt', '(previous >> 5) * 32', '(previous >> 4) * 16')]),
    Mutant('a bit of PMON modulates the voice after its own', ['voice_unit', 'voice_batch'], ['tests_sounds'], [
        (VOICE, 'has_bit pmon voice', 'has_bit pmon (voice - 1)'), ('voice_unit/src/interface.rt', 'has_bit(pmon, voice)', 'has_bit(pmon, voice - 1)')]),
    Mutant('a key on clears the last samples', ['voice_unit', 'voice_batch'], ['tests_sounds'], [
        (VOICE, 'samples = v.samples;', 'samples = if v.delay == 5 then replicate 12 (pos 0) else v.samples;'),
        (VOICE_CODE, 'self.block = start_word(input.dir, regs.srcn, memory);', 'self.block = start_word(input.dir, regs.srcn, memory);\n            self.samples = [0; 12];')]),

    # the echo's filter and its buffer, and what a batch can meet
    Mutant('taps over 128', ['echo_unit'], ['tests_sounds'], [
        (FIR, 'scaled sample (sign8 coefficient) 6', 'scaled sample (sign8 coefficient) 7'), (FILTER, 'coefficients.now i)) 6)', 'coefficients.now i)) 7)'),
        (FILTER, 'signed(coefficients[i]), 6)', 'signed(coefficients[i]), 7)'), (ECHO_ROWS, '(sign8 coefficient) 6)', '(sign8 coefficient) 7)'),
        (ECHO_ROWS, 'over_64(by)', 'over_128(by)'), (ECHO_ROWS, '{add_row, over_64, over_128}', '{add_row, over_128}')]),
    Mutant('coefficients without a sign', ['echo_unit'], ['tests_sounds'], [
        (FIR, '(sign8 coefficient)', '(pos coefficient)'), (FIR, ', clear_bit0, sign8}', ', clear_bit0}'),
        (FILTER, '(sign8 (slice_index coefficients.now i))', '(pos (slice_index coefficients.now i))'), (FILTER, '{scaled, sign8, wrap16}', '{scaled, wrap16}'),
        (FILTER, '◌+◌, map,', '◌+◌, pos, map,'), (FILTER, 'signed(coefficients[i])', 'signed(coefficients[i]).rem_euclid(0x100)'),
        (ECHO_ROWS, '(sign8 coefficient)', '(pos coefficient)'), (ECHO_ROWS, '{scaled, sign8, wrap16}', '{scaled, wrap16}'),
        (ECHO_ROWS, 'ℤ, ◌+ℤ◌, false', 'ℤ, pos, ◌+ℤ◌, false'), (ECHO_ROWS, 'let by = signed(coefficient)', 'let by = i16::from(coefficient)')]),
    Mutant('the sum of the first seven taps limited', ['echo_unit'], ['tests_sounds'], [
        (FIR, 'fold (λ sum number. sum +ℤ number)', 'fold (λ sum number. clamp16 (sum +ℤ wrap16 number))'),
        (FILTER, 'sum = wrapped_sum(sum,', 'sum = add_clamped(sum,'), (FILTER, 'use crate::wrapped::wrapped_sum;\n', ''),
        (PARTS, 'wrapped_sum(sums[j], high_product', 'add_clamped(sums[j], high_product'), (PARTS, 'wrapped_sum(sums[j], wrapped_product', 'add_clamped(sums[j], wrapped_product'),
        (PARTS, '{high_product, wrapped_product, wrapped_sum}', '{high_product, wrapped_product}'), (PARTS, 'use num_fix::BATCH_SIZE', 'use num_fix::{BATCH_SIZE, add_clamped}')]),
    Mutant('the sum with the newest tap wraps', ['echo_unit'], ['tests_sounds'], [
        (FIR, 'clear_bit0 (clamp16 (', 'clear_bit0 (wrap16 ('), (FIR, '{scaled, wrap16, clamp16, clear_bit0', '{scaled, wrap16, clear_bit0'),
        (FILTER, 'add_clamped(sum, tap', 'wrapped_sum(sum, tap'), (FILTER, '{Frame, add_clamped, clear_bit0,', '{Frame, clear_bit0,'),
        (ECHO_ROWS, 'add_clamped(sums[j], last[j])', 'sums[j].wrapping_add(last[j])')]),
    Mutant('the right word of a cell first', ['echo_unit'], ['tests_sounds'], [
        (ECHO, 'left = halved_word memory address; right = halved_word memory ((address + 2) % 0x10000)',
         'left = halved_word memory ((address + 2) % 0x10000); right = halved_word memory address'),
        (ECHO, '(with_word memory address left) ((address + 2) % 0x10000) right', '(with_word memory address right) ((address + 2) % 0x10000) left'),
        (PAGE, 'left = halved_at page at; right = halved_at page (at + 2)', 'left = halved_at page (at + 2); right = halved_at page at'),
        (PAGE, '(with_word_in page at left) (at + 2) right', '(with_word_in page at right) (at + 2) left'),
        (CELL, 'left: halved_word(memory, address),\n        right: halved_word(memory, address.wrapping_add(2))',
         'left: halved_word(memory, address.wrapping_add(2)),\n        right: halved_word(memory, address)'),
        (CELL, 'address, left);\n    put_word(memory, address.wrapping_add(2), right)', 'address, right);\n    put_word(memory, address.wrapping_add(2), left)'),
        (PAGE_CODE, 'left: halved_at(page, at),\n        right: halved_at(page, at + 2)', 'left: halved_at(page, at + 2),\n        right: halved_at(page, at)'),
        (PAGE_CODE, 'put_word(page, at, left);\n    put_word(page, at + 2, right)', 'put_word(page, at, right);\n    put_word(page, at + 2, left)')]),
    Mutant('a word goes back with its bit 0', ['echo_unit'], ['tests_sounds'], [
        (ECHO, 'clear_bit0 (clamp16 (sent +ℤ at_volume echo efb))', 'clamp16 (sent +ℤ at_volume echo efb)'), (ECHO, 'clamp16, clear_bit0, sign8}', 'clamp16, sign8}'),
        (VOLUME, 'clear_bit0(add_clamped(sent, at_volume(echo, efb)))', 'add_clamped(sent, at_volume(echo, efb))'),
        (ECHO_ROWS, 'clear_bit0(add_clamped(sent[j], words[j]))', 'add_clamped(sent[j], words[j])'),
        (VOLUME, 'add_clamped, clear_bit0, scaled', 'add_clamped, scaled')]),
    Mutant('a product with a volume limited', ['echo_unit'], ['tests_sounds'], [
        (ECHO, 'wrap16 (scaled sample (sign8 volume) 7)', 'clamp16 (scaled sample (sign8 volume) 7)'), (ECHO, 'scaled, wrap16, clamp16', 'scaled, clamp16'),
        (VOLUME, 'wrap16(scaled(sample, signed(volume), 7))', 'clamp16(scaled(sample, signed(volume), 7))'),
        (VOLUME, 'add_clamped, clear_bit0, scaled, sign8, wrap16}', 'add_clamped, clamp16, clear_bit0, scaled, sign8}')]),
    Mutant('EDL counts units of 1,024 bytes', ['reach_map', 'echo_unit'], ['tests_sounds'], [
        (WINDOW, 'edl % 16 * 0x800', 'edl % 16 * 0x400'), (ECHO, 's.length % 0x800 == 0 && nat_le s.length (15 * 0x800)', 's.length % 0x400 == 0 && nat_le s.length (15 * 0x400)'),
        (ECHO_CODE, 'LENGTH_UNIT: u16 = 2048', 'LENGTH_UNIT: u16 = 1024'),
        (ECHO_CODE, 'result ≤ 15 * 0x800', 'result ≤ 15 * 0x400'), (ECHO_CODE, 'result % 0x800', 'result % 0x400'),
        (ECHO_CODE, 'self.now.offset < 15 * 0x800', 'self.now.offset < 15 * 0x400'), (ECHO_CODE, 'result.len ≤ 15 * 2048', 'result.len ≤ 15 * 1024')]),
    Mutant('five bits of EDL', ['reach_map', 'echo_unit'], ['tests_sounds'], [
        (WINDOW, 'edl % 16 * 0x800', 'edl % 32 * 0x800'), (ECHO, '(15 * 0x800)', '(31 * 0x800)'),
        (ECHO_CODE, 'u16::from(edl % 16)', 'u16::from(edl % 32)'), (ECHO_CODE, 'u32::from(edl % 16)', 'u32::from(edl % 32)'),
        (ECHO_CODE, 'regs.edl % 16 != 0', 'regs.edl % 32 != 0'), (ECHO_CODE, '{1}0 < regs.now.edl % 16', '0 < regs.now.edl % 32'), (ECHO_CODE, '0 < regs.now.edl % 16', '0 < regs.now.edl % 32'),
        (ECHO_CODE, 'result ≤ 15 * 0x800', 'result ≤ 31 * 0x800'), (ECHO_CODE, 'self.now.offset < 15 * 0x800', 'self.now.offset < 31 * 0x800'),
        (ECHO_CODE, 'result.len ≤ 15 * 2048', 'result.len ≤ 31 * 2048')]),
    Mutant("the echo's window by EDL alone", ['reach_map', 'echo_unit', 'reach_laws'], ['tests_sounds'], [
        (WINDOW, 'max (max length (echo_length edl)) 4', 'max (echo_length edl) 4'), (ECHO_CODE, 'u32::from(self.length).max(asked).max(4)', 'asked.max(4)')]),
    Mutant('chains of 17 blocks', ['reach_map', 'reach_laws'], ['tests_parts'], [
        ('reach_map/specs/Reach.antt', 'start.loop_word 18 start.block', 'start.loop_word 17 start.block'), ('reach_map/src/voices.rt', 'CHAIN_BLOCKS: u32 = 18', 'CHAIN_BLOCKS: u32 = 17')]),

    # statuses and complaints
    Mutant('the numbers 5 and 6 exchanged', ['exit_status'], ['tests_files'], [
        (STATUSES, 'code_of statuses.SpcSignature = 5', 'code_of statuses.SpcSignature = 6'), (STATUSES, 'code_of statuses.TableLength = 6', 'code_of statuses.TableLength = 5'),
        (STATUS, 'Status::SpcSignature => 5', 'Status::SpcSignature => 6'), (STATUS, 'Status::TableLength => 6', 'Status::TableLength => 5')]),
    Mutant('the numbers 2 and 3 exchanged', ['exit_status'], ['tests_files'], [
        (STATUSES, 'code_of statuses.ReadFault = 2', 'code_of statuses.ReadFault = 3'), (STATUSES, 'code_of statuses.WriteFault = 3', 'code_of statuses.WriteFault = 2'),
        (STATUS, 'Status::ReadFault => 2', 'Status::ReadFault => 3'), (STATUS, 'Status::WriteFault => 3', 'Status::WriteFault => 2')]),
    Mutant('the line on memory', ['exit_status'], ['spcwave'], [
        (LINES, '"spcwave: out of memory\\n"', '"spcwave: no memory\\n"'), (LINES_CODE, '"spcwave: out of memory\\n"', '"spcwave: no memory\\n"')]),
    Mutant('the faults far and long exchanged', ['exit_status'], ['tests_commands'], [
        (LINES, 'codes ": far\\n"', 'codes ": faar\\n"'), (LINES, 'codes ": long\\n"', 'codes ": far\\n"'), (LINES, 'codes ": faar\\n"', 'codes ": long\\n"'),
        (LINES_CODE, 'b": far\\n"', 'b": faar\\n"'), (LINES_CODE, 'b": long\\n"', 'b": far\\n"'), (LINES_CODE, 'b": faar\\n"', 'b": long\\n"')]),
    Mutant('7Fh is printable', ['report_text'], ['tests_files'], [
        ('report_text/specs/Texts.antt', 'nat_le byte 0x7e', 'nat_le byte 0x7f'), ('report_text/src/growing.rt', 'byte <= 0x7e', 'byte <= 0x7f')]),

    # the opening, the fade, and what a render reports
    Mutant('X and Y exchanged at the opening', ['render_core'], ['tests_tunes', 'tests_renders'], [
        (OPENED, 'x = x_of file', 'x = y_of file'), (OPENED, 'y = y_of file', 'y = x_of file'),
        (OPENED_CODE, 'x: file.x()', 'x: file.y()'), (OPENED_CODE, 'y: file.y()', 'y: file.x()')]),
    Mutant('A and X exchanged at the opening', ['render_core'], ['tests_tunes', 'tests_renders'], [
        (OPENED, 'a = a_of file', 'a = x_of file'), (OPENED, 'x = x_of file', 'x = a_of file'),
        (OPENED_CODE, 'a: file.a()', 'a: file.x()'), (OPENED_CODE, 'x: file.x()', 'x: file.a()')]),
    Mutant('the status and the stack pointer exchanged at the opening', ['render_core'], ['tests_tunes', 'tests_renders'], [
        (OPENED, 'sp = sp_of file', 'sp = psw_of file'), (OPENED, 'psw = psw_of file', 'psw = sp_of file'),
        (OPENED_CODE, 'sp: file.sp()', 'sp: file.psw()'), (OPENED_CODE, 'psw: file.psw()', 'psw: file.sp()')]),
    Mutant('a fade that ends one frame later', ['render_core'], ['tests_renders'], [
        (FADE, '{1}(frames - 1 - at)', '(frames - at)'), (FADE, '(frames - 1 - at)', '(frames - at)'), (FADE_CODE, 'frames - 1 - at', 'frames - at'),
        (FADE_CODE, 'after < fade', 'after ≤ fade')]),
    Mutant('the causes register and memory exchanged', ['render_files'], ['tests_tunes'], [
        (BATCHES, 'decimal counts.register ++ codes " memory " ++ decimal counts.memory', 'decimal counts.memory ++ codes " memory " ++ decimal counts.register'),
        (BATCHES_CODE, 'b" register ", counts.register', 'b" register ", counts.memory'), (BATCHES_CODE, 'b" memory ", counts.memory', 'b" memory ", counts.register')]),
    Mutant('the causes full and end exchanged', ['render_files'], ['tests_tunes'], [
        (BATCHES, 'codes " full " ++ decimal counts.full', 'codes " full " ++ decimal counts.«end»'),
        (BATCHES, '++ codes " end " ++ decimal counts.«end»', '++ codes " end " ++ decimal counts.full'),
        (BATCHES_CODE, 'b" full ", counts.full', 'b" full ", counts.end'), (BATCHES_CODE, 'b" end ", counts.end', 'b" end ", counts.full')]),
    Mutant('the causes echo and events exchanged', ['render_files'], ['tests_tunes'], [
        (BATCHES, 'codes " echo " ++ decimal counts.echo', 'codes " echo " ++ decimal counts.events'),
        (BATCHES, 'codes " events " ++ decimal counts.events', 'codes " events " ++ decimal counts.echo'),
        (BATCHES_CODE, 'b" echo ", counts.echo', 'b" echo ", counts.events'), (BATCHES_CODE, 'b" events ", counts.events', 'b" events ", counts.echo')]),

    Mutant('the trace before the head of the sound file', ['command_runner'], ['tests_tunes'], [
        (STREAMING, '    put(host, targets, head, &[])?;\n    pump(host, targets, source)?;\n',
         '    let done = source.make_next();\n    put(host, targets, &[], source.trace())?;\n    put(host, targets, head, &[])?;\n'
         '    put(host, targets, source.wave(), &[])?;\n    if !done {\n        pump(host, targets, source)?;\n    }\n')]),

    # the words of the command line, and what a player is opened with
    Mutant('fewer samples than an hour has', ['command_line'], ['spcwave'], [
        (OPTIONS, 'nat_le (decimal_value word) max_frames', 'not (nat_le max_frames (decimal_value word))'), (OPTIONS_CODE, 'count <= u64::from(MAX_FRAMES)', 'count < u64::from(MAX_FRAMES)')]),
    Mutant('no demo file of the number 4,294,967,295', ['command_line'], ['spcwave'], [
        (OPTIONS, 'max_number = 4294967295', 'max_number = 4294967294'), (OPTIONS_CODE, 'MAX_NUMBER: u64 = 4294967295', 'MAX_NUMBER: u64 = 4294967294')]),
    Mutant('a range of two entries at least', ['command_line'], ['spcwave'], [
        (OPTIONS, 'nat_le (slice_index ends 0) (slice_index ends 1)', 'not (nat_le (slice_index ends 1) (slice_index ends 0))'),
        (OPTIONS_CODE, 'ends[0] <= ends[1]', 'ends[0] < ends[1]')]),
    Mutant('--trace twice', ['command_line'], ['spcwave'], [
        (OPTIONS, '(once options.trace (name_in value))', '(name_in value)'), (OPTIONS_CODE, '(None, Some(trace)) =>', '(_, Some(trace)) =>')]),
    Mutant('--voices twice', ['command_line'], ['spcwave'], [
        (OPTIONS, '(once options.voices (voices_in value))', '(voices_in value)'), (OPTIONS_CODE, '(None, Some(voices)) =>', '(_, Some(voices)) =>')]),
    Mutant('--search takes 2 candidates at least', ['command_line'], ['spcwave'], [
        (ENCODE_WORDS, 'nat_le 1 (decimal_value word)', 'nat_le 2 (decimal_value word)'), (ENCODE_WORDS_CODE, '(1..=u64::from(MAX_CANDIDATES))', '(2..=u64::from(MAX_CANDIDATES))')]),
    Mutant('--loop-at twice', ['command_line'], ['spcwave'], [
        (ENCODE_WORDS, '(once options.loop_at (loop_at_in value))', '(loop_at_in value)'), (ENCODE_WORDS_CODE, '(None, Some(sample)) =>', '(_, Some(sample)) =>')]),
    Mutant('a table whose name begins with a dash', ['command_line'], ['spcwave'], [
        ('command_line/specs/Command.antt', 'if is_name file && (is_name table && is_name wave) then render_with', 'if is_name file && is_name wave then render_with'),
        ('command_line/src/words.rt', 'is_name(file.as_str()) && is_name(table.as_str()) && is_name(wave.as_str())', 'is_name(file.as_str()) && is_name(wave.as_str())')]),
    Mutant('a width of three digits', ['command_line'], ['spcwave'], [
        (ENCODE_WORDS, 'is_number 2 word', 'is_number 3 word'), (ENCODE_WORDS_CODE, 'is_number(2, word)', 'is_number(3, word)')]),
    Mutant('samples to loop to in seven digits', ['command_line'], ['spcwave'], [
        (ENCODE_WORDS, 'is_number 6 word', 'is_number 7 word'), (ENCODE_WORDS_CODE, 'is_number(6, word)', 'is_number(7, word)')]),
    Mutant('no loop at the sample 116,480', ['command_line'], ['spcwave'], [
        (ENCODE_WORDS, 'nat_le (decimal_value word) max_samples', 'not (nat_le max_samples (decimal_value word))'), (ENCODE_WORDS, 'nat_le, if', 'nat_le, not, if'),
        (ENCODE_WORDS_CODE, 'sample <= MAX_SAMPLES', 'sample < MAX_SAMPLES')]),
    Mutant('fewer seconds between marks than an hour has', ['player'], ['spc_player'], [
        ('player/src/own_marks.rt', 'MAX_MARK_SECONDS: u32 = 3600', 'MAX_MARK_SECONDS: u32 = 3599')]),

    # demo files, encodings, cuts and sessions
    Mutant('another factor of the draws', ['demo_gen'], ['tests_files'], [
        (DRAWS, '1664525', '1664527'), (DRAWS_CODE, '1664525', '1664527')]),
    Mutant('another byte of a state drawn', ['demo_gen'], ['tests_files'], [
        (DRAWS, 's / 0x1000000', 's / 0x10000 % 0x100'), (DRAWS_CODE, '(state >> 24) as u8', '(state >> 16) as u8')]),
    Mutant('shifts of 5 to 11 in demo files', ['demo_gen'], ['tests_files'], [
        ('demo_gen/specs/Samples.antt', '16 * (4 + byte % 7)', '16 * (5 + byte % 7)'), ('demo_gen/src/samples.rt', '16 * (4 + byte % 7)', '16 * (5 + byte % 7)')]),
    Mutant('of equally near digits and headers the last', ['brr_encode', 'brr_search'], ['tests_files'], [
        (LEAST, 'if nat_lt (f n)', 'if nat_le (f n)'), (LEAST, ', nat_lt, if', ', nat_le, if'),
        (CHOICE, 'second.distance < first.distance', 'second.distance <= first.distance'), (CHOICE, '(if nat_lt second', '(if nat_le second'),
        (CHOICE, ', nat_lt, if', ', nat_le, if'),
        (SEARCH, 'limit <= sum', 'limit < sum'), (SEARCH, 'limit ≤ sum', 'limit < sum'), (SEARCH, '(λ limit. sum < limit)', '(λ limit. sum ≤ limit)'),
        (SEARCH, '(λ limit. squares < limit)', '(λ limit. squares ≤ limit)'), (SEARCH, 'limit ≤ greedy_squares', 'limit < greedy_squares')]),
    Mutant('a loop goes on from the block of half its sample', ['brr_search'], ['tests_commands'], [
        ('brr_search/specs/Options.antt', 'options.loop_at 0 / 16', 'options.loop_at 0 / 32'), ('brr_search/src/options.rt', 'sample as usize / 16', 'sample as usize / 32')]),
    Mutant('7,281 blocks encoded', ['brr_encode', 'brr_search', 'sample_rip', 'command_line'], ['tests_files', 'tests_commands'], [
        (ENCODING, 'max_samples = 116480', 'max_samples = 116496'), (ENCODING, 'max_blocks = 7280', 'max_blocks = 7281'),
        ('brr_encode/src/encoder.rt', 'MAX_SAMPLES: usize = 116480', 'MAX_SAMPLES: usize = 116496'), ('sample_rip/src/blocks.rt', 'MAX_BLOCKS: u32 = 7280', 'MAX_BLOCKS: u32 = 7281')]),
    Mutant('63 checkpoints', ['cut_form', 'mark_laws'], ['tests_renders', 'tests_tunes'], [
        (CUT, 'MAX_CHECKPOINTS: u32 = 64', 'MAX_CHECKPOINTS: u32 = 63')]),
    Mutant('4,097 pages for lists of cuts', ['cut_form', 'session_files', 'command_cuts'], ['tests_tunes'], [
        (CUT, 'SLOTS_FOR_CUTS: u32 = 4096', 'SLOTS_FOR_CUTS: u32 = 4097')]),
    Mutant('4,095 pages for lists of cuts', ['cut_form', 'session_files', 'command_cuts'], ['tests_tunes'], [
        (CUT, 'SLOTS_FOR_CUTS: u32 = 4096', 'SLOTS_FOR_CUTS: u32 = 4095')]),
    Mutant('numbers of eight digits at most in lists and scripts', ['cut_form', 'cut_text'], ['tests_files'], [
        ('cut_form/specs/TextLines.antt', 'max_digits = 9', 'max_digits = 8'), ('cut_text/src/lines.rt', 'MAX_DIGITS: usize = 9', 'MAX_DIGITS: usize = 8')]),
    Mutant('the position in the reply before the frames that were played', ['cut_form', 'session_files'], ['tests_tunes'], [
        (SESSION, 'codes "played " ++ decimal count ++ codes " at " ++ decimal at', 'codes "played " ++ decimal at ++ codes " at " ++ decimal count'),
        (REPLIES, 'b"played ", u64::from(count)', 'b"played ", u64::from(at)'), (REPLIES, 'b" at ", u64::from(at)', 'b" at ", u64::from(count)')]),
    Mutant('lists of 1,001 cuts', ['cut_form', 'cut_text'], ['tests_files'], [
        ('cut_form/specs/CutList.antt', 'max_cuts = 1000', 'max_cuts = 1001'), ('cut_text/src/cuts.rt', 'MAX_CUTS: usize = 1000', 'MAX_CUTS: usize = 1001')]),
    Mutant('the text of a mark', ['cut_form', 'session_files'], ['tests_tunes'], [
        (SESSION, 'codes " gave "', 'codes " gives "'), (REPLIES, 'b" gave "', 'b" gives "')]),

    # sums, stores and limits
    Mutant('sums over voices that wrap', ['dsp_state', 'batch_rows'], ['tests_sounds'], [
        ('dsp_state/specs/Mix.antt', 'clamp16 (sum +ℤ share)', 'wrap16 (sum +ℤ share)'), ('dsp_state/specs/Mix.antt', '{scaled, clamp16}', '{scaled, wrap16}'),
        ('dsp_state/src/mix.rt', '    clamp16(i32::from(sum)', '    wrap16(i32::from(sum)'), ('dsp_state/src/mix.rt', 'use num_fix::{Frame, clamp16, scaled};', 'use num_fix::{Frame, scaled, wrap16};'),
        ('batch_rows/src/sums.rt', 'add_clamped(sum, high_product(out, factor))', 'sum.wrapping_add(high_product(out, factor))'),
        ('batch_rows/src/sums.rt', 'add_clamped(sum, add_clamped(out', 'sum.wrapping_add(add_clamped(out')]),
    Mutant('an output that wraps', ['echo_unit'], ['tests_sounds'], [
        ('echo_unit/specs/Echo.antt', 'clamp16 (at_volume main main_volume', 'wrap16 (at_volume main main_volume'),
        ('echo_unit/src/volume.rt', 'add_clamped(at_volume(main, main_volume), at_volume(echo, echo_volume))', 'at_volume(main, main_volume).wrapping_add(at_volume(echo, echo_volume))'),
        (ECHO_ROWS, 'add_clamped(outputs[j], echoes[j])', 'outputs[j].wrapping_add(echoes[j])')]),
    Mutant('what goes back to the echo wraps', ['echo_unit'], ['tests_sounds'], [
        ('echo_unit/specs/Echo.antt', 'clear_bit0 (clamp16 (sent', 'clear_bit0 (wrap16 (sent'),
        ('echo_unit/src/volume.rt', 'clear_bit0(add_clamped(sent, at_volume(echo, efb)))', 'clear_bit0(sent.wrapping_add(at_volume(echo, efb)))'),
        (ECHO_ROWS, 'add_clamped(sent[j], words[j])', 'sent[j].wrapping_add(words[j])')]),
    Mutant('a write of a result stores nothing', ['dsp_state', 'dsp_core'], ['tests_sounds'], [
        ('dsp_state/specs/Outside.antt', 'if nat_le 0x80 address then s', 'if nat_le 0x80 address || nat_le 8 (address % 16) && nat_le (address % 16) 9 then s'),
        ('dsp_state/specs/Outside.antt', '◌==◌, nat_le', '◌==◌, ◌&&◌, ◌||◌, nat_le'),
        ('dsp_core/src/dsp.rt', '        if addr >= 0x80 {\n            return;', '        if addr >= 0x80 || addr % 16 == 8 || addr % 16 == 9 {\n            return;')]),
    Mutant('a register of no use stores nothing', ['dsp_state', 'dsp_core'], ['tests_sounds'], [
        ('dsp_state/specs/Outside.antt', 'if nat_le 0x80 address then s', 'if nat_le 0x80 address || address % 16 == 10 then s'), ('dsp_state/specs/Outside.antt', '◌==◌, nat_le', '◌==◌, ◌||◌, nat_le'),
        ('dsp_core/src/dsp.rt', '        if addr >= 0x80 {\n            return;', '        if addr >= 0x80 || addr % 16 == 10 {\n            return;')]),
    Mutant('the record of a write of ENDX has what is stored', ['lock_step', 'sound_bus', 'lag_bus'], ['tests_tunes'], [
        ('lock_step/specs/LockStep.antt', 'Reg sample dsp_address value', 'Reg sample dsp_address (if dsp_address == 0x7C then 0 else value)'),
        ('sound_bus/src/plain.rt', '                addr: address,\n                value,', '                addr: address,\n                value: if address == 0x7C { 0 } else { value },'),
        ('lag_bus/src/lag.rt', '            addr: address,\n            value,', '            addr: address,\n            value: if address == 0x7C { 0 } else { value },')]),
    Mutant('chains of 19 blocks', ['reach_map', 'reach_laws'], ['tests_parts'], [
        ('reach_map/specs/Reach.antt', 'start.loop_word 18 start.block', 'start.loop_word 19 start.block'), ('reach_map/src/voices.rt', 'CHAIN_BLOCKS: u32 = 18', 'CHAIN_BLOCKS: u32 = 19')]),
    Mutant('a directory held at the end of memory', ['voice_unit'], ['tests_sounds'], [
        ('voice_unit/specs/Directory.antt', '(dir * 0x100 + srcn * 4) % 0x10000', 'min (dir * 0x100 + srcn * 4) 0xFFFC'), ('voice_unit/specs/Directory.antt', '{ℕ, ◌+◌,', '{ℕ, min, ◌+◌,'),
        ('voice_unit/src/directory.rt', '(u16::from(dir) << 8).wrapping_add(u16::from(srcn) << 2)', '(u16::from(dir) << 8).saturating_add(u16::from(srcn) << 2).min(0xFFFC)')]),
    Mutant('a play that ends with the hour is refused', ['cut_form', 'cut_text', 'session_files'], ['tests_files'], [
        (SESSION, 'nat_le (session.book.position + count) max_frames &&', 'nat_lt (session.book.position + count) max_frames &&'), (SESSION, '◌==◌, nat_le', '◌==◌, nat_le, nat_lt'),
        ('cut_text/specs/Playing.antt', 'nat_le (position + count) max_frames &&', 'nat_lt (position + count) max_frames &&'), ('cut_text/specs/Playing.antt', '◌&&◌, nat_le', '◌&&◌, nat_le, nat_lt'),
        ('session_files/src/session_run.rt', 'at > MAX_FRAMES ||', 'at >= MAX_FRAMES ||'), ('cut_text/src/script.rt', 'position + count <= MAX_FRAMES &&', 'position + count < MAX_FRAMES &&')]),
    Mutant('lists of 16 MB', ['command_cuts'], ['tests_tunes'], [
        ('command_cuts/specs/Lists.antt', 'bytes_in input_limit InputTooLong held', 'bytes_in 16777216 InputTooLong held'),
        ('command_cuts/src/list.rt', 'use input_files::{INPUT_LIMIT, read_input};', 'use input_files::{WAVE_LIMIT as INPUT_LIMIT, read_input};')]),
    Mutant('scripts of 16 MB', ['command_serve'], ['tests_tunes'], [
        ('command_serve/specs/Scripts.antt', 'bytes_in input_limit InputTooLong held', 'bytes_in 16777216 InputTooLong held'),
        ('command_serve/src/script.rt', 'use input_files::{INPUT_LIMIT, read_input};', 'use input_files::{WAVE_LIMIT as INPUT_LIMIT, read_input};')]),
    Mutant('the list refused before the table', ['command_cuts'], ['tests_tunes'], [
        ('command_cuts/specs/Cuts.antt', 'file_answer wave muted held_table held_list file = answer_from (table_in held_table) (table_answer wave muted held_list file)',
         'file_answer wave muted held_table held_list file = answer_from (cuts_in held_list) (λ cuts. answer_from (table_in held_table) (λ table. list_answer wave muted file table cuts))'),
        ('command_cuts/src/command.rt', '    let table = read_table(alloc, host, names.table)?;\n    prepare_list(alloc, host, file, table, names, muted)',
         '    let cuts = read_list(alloc, host, names.list)?;\n    let table = read_table(alloc, host, names.table)?;\n    plan(alloc, file, table, cuts, names.wave, muted)')]),
    Mutant('one sample more is numbered', ['num_fix'], [], [
        ('num_fix/specs/Limits.antt', 'max_sample_number = 4000000000', 'max_sample_number = 4000000001')]),
    Mutant('plays of 128 samples into a list', ['cut_form'], [], [
        ('cut_form/src/cut.rt', 'MAX_PLAYED: u32 = 64;', 'MAX_PLAYED: u32 = 128;')]),
]
