"""The rewritings that need no function: what is found, what is written, and what is said."""

GONE = 'no effect'
STANDARD = 'operators are written in the standard set'

# A directive without effect: how many tokens go with the word (None: all up to ;), why, a note.
DIRECTIVES = {
    '@ALTERNATE': (0, STANDARD, ''), '@STANDARD': (0, STANDARD, ''), '@PAGE': (0, GONE, ''),
    '@CARRY': (None, GONE, ''), '@SETSIZE': (None, GONE, ''), '@MESSAGE': (1, 'a message', ''),
    '@DCSTATE': (0, GONE, '@DCSTATE leaves transitions free that nothing says; here they go to '
                          'state 0, as it allows'),
}
# Directives that compare texts, those with a block that abel has too, and those that stay.
COMPARISONS = {'@IFB', '@IFNB', '@IFIDEN', '@IFNIDEN'}
BLOCKS = {'@IF', '@IFDEF', '@IFNDEF', '@IRP', '@IRPC', '@REPEAT'}
STAY = {'@DCSET', '@ONSET'}

# An operator of the alternate set, and that of the standard set.
OPERATORS = {'/': '!', '*': '&', '+': '#', ':+:': '$', ':*:': '!$'}

# Reserved words that were names before ABEL 4, and the words that begin a section.
RESERVED = {'ASYNC_RESET', 'EXTERNAL', 'FUNCTIONAL_BLOCK', 'FUSES', 'IN', 'INTERFACE', 'LIBRARY',
            'PROPERTY', 'STATE_REGISTER', 'SYNC_RESET', 'TRACE', 'XOR_FACTORS'}
HEADERS = {'EQUATIONS', 'TRUTH_TABLE', 'STATE_DIAGRAM', 'TEST_VECTORS', 'DECLARATIONS', 'END',
           'MODULE'}
HINTS = {'XOR_FACTORS', 'TRACE'}
SECTIONS = HEADERS | HINTS | {'FUSES'}
# Words of which one says what a declaration is; these may be its first; these end a WITH.
FIRST = {'LIBRARY', 'FLAG', 'OPTIONS', 'PROPERTY', 'EXTERNAL'}
KINDS = FIRST | {'DEVICE', 'PIN', 'NODE', 'ISTYPE', 'STATE_REGISTER', 'STATE', '=', 'INTERFACE',
                 'FUNCTIONAL_BLOCK', 'MACRO'}
NO_STATEMENT = {'ELSE', 'STATE', 'ENDCASE', 'IF', 'GOTO', 'CASE', 'WITH'} | HEADERS

# Declarations with attributes, and those of a module that is a part of another.
DECLARING = {'PIN', 'NODE', 'ISTYPE', 'STATE_REGISTER'}
PARTIAL = {'INTERFACE', 'FUNCTIONAL_BLOCK', 'EXTERNAL'}

# A part of a source that goes: why, and whether that is a loss.
PARTS = {
    'TRACE': ('it only chose what a listing shows', False),
    'XOR_FACTORS': ('a hint to the minimiser', False),
    'FUSES': ("fuses can't be set here (NOT_HERE.md)", True),
    'PROPERTY': ('a fitter of another chip read it', True),
}

# The devices that stay as they are.
DEVICES = {'P16L8', 'P16R4', 'P16R6', 'P16R8', 'P22V10', 'GAL22V10', 'GAL16V8C', 'GAL16V8R4',
           'GAL16V8R6', 'GAL16V8R8', 'P20L8', 'P20R4', 'P20R6', 'P20R8', 'P20L10', 'P16P8',
           'P18P8', 'GAL18V10', 'ATF22V10C'}
# Those with 24 pins; the 22V10s among them; those whose cells are registers or not, of either
# polarity, with a reset and a preset.
WIDE = {'GAL22V10', 'ATF22V10C', 'P20L8', 'P20R4', 'P20R6', 'P20R8', 'P20L10'}
V10 = {'GAL22V10', 'ATF22V10C'}
EITHER = V10 | {'GAL18V10'}
# The pins that no equation may read.
UNREAD = {'P16L8': (12, 19), 'GAL16V8C': (12, 19), 'P16P8': (12, 19), 'P20L8': (15, 22),
          'P20L10': (14, 23), 'ATF22V10C': (4,)}
# A part's maker and number without grade and package; what is written, and what is said.
COUNTERPARTS = [
    (r'P 22V10', 'P22V10', ''),
    (r'\w* 22V10', 'GAL22V10', ''),
    (r'\w* (16L8|16R[468])', r'P\1', ''),
    (r'\w* 16RP([468])', r'GAL16V8R\1', 'a GAL16V8 takes its place'),
    (r'\w* (10L8|12L6|14L4|16L2)', 'P16L8', 'the PAL16L8 has its pins'),
    (r'\w* (10H8|12H6|14H4|16H2|16H8|16P8|18P8)', 'GAL16V8C', 'a GAL16V8 takes its place'),
    (r'\w* (12L10|14L8|16L6|18L4|20L2|20L8|20L10|20R[468]|20V8|20P8|20RP[468])', 'GAL22V10',
     'it has the pins of a %s: program a 22V10'),
]
# The modes of a 16V8 that have registers, and the pins of these.
REGISTERED = {'GAL16V8R4': range(14, 18), 'GAL16V8R6': range(13, 19), 'GAL16V8R8': range(12, 20)}
# The pin of the 24-pin package for each connected pin of the 28-pin package.
PLCC = dict(zip([2, 3, 4, 5, 6, 7, 9, 10, 11, 12, 13, 14, 16, 17, 18, 19, 20, 21, 23, 24, 25, 26,
                 27, 28], range(1, 25)))
UNCONNECTED = {1, 8, 15, 22}
# The old numbers of the nodes of a 22V10, in both packages.
NODES = {25: '.AR', 26: '.SP', 29: '.AR', 30: '.SP'}

# An attribute, and what is written for it.
ATTRIBUTES = {word: word for word in 'reg_d reg com buffer invert dc pos neg keep collapse '
              'retain'.split()}
ATTRIBUTES.update(dict.fromkeys('reg_t reg_jk reg_sr reg_g reg_jkd'.split(), 'reg'))
ATTRIBUTES.update(dict.fromkeys('feed_pin feed_reg feed_or xor share eqn fuse pin'.split(), ''))

# An extension, and what is written for it on a 22V10.
EXTENSIONS = {'.C': '.CLK', '.ACLR': '.AR', '.RE': '.AR', '.PR': '.SP'}
# An extension that only other devices have, and what these have in its place.
NO_EXTENSIONS = {
    '.AP': 'only a preset at the clock, .SP (NOT_HERE.md)',
    '.ASET': 'only a preset at the clock, .SP (NOT_HERE.md)',
    '.LE': 'no latches (HAZARDS.md, Latches)', '.LH': 'no latches (HAZARDS.md, Latches)',
    '.L': 'no latches (HAZARDS.md, Latches)',
    '.LD': 'no such input (NOT_HERE.md)', '.FC': 'no such input (NOT_HERE.md)',
}
INPUTS = {'.T', '.J', '.K', '.S', '.R'}           # of registers that aren't D registers
PARTNERS = {'.J': '.K', '.S': '.R'}
# What is written before and behind an input in its place, by whether its partner is there too.
IN_PLACE = {
    ('.T', False): ('', ' $ %s'), ('.K', False): ('!', ' & %s'), ('.R', False): ('!', ' & %s'),
    ('.J', True): ('', ' & !%s'), ('.J', False): ('', ' # %s'),
    ('.S', True): ('', ''), ('.S', False): ('', ' # %s'),
}
# The value of a register whose inputs are nodes.
BY_NODES = {
    'T': '{T} $ {q}', 'JK': '{J} & !{q} # !{K} & {q}', 'SR': '{S} # !{R} & {q}',
    'J': '{J} # {q}', 'K': '!{K} & {q}', 'S': '{S} # {q}', 'R': '!{R} & {q}',
}
BY_COMPLEMENT = {'.D', '.Q', '.FB'} | INPUTS      # say something of the register itself
RESETS, PRESETS = {'.AR', '.RE', '.ACLR'}, {'.AP', '.ASET'}      # at once
CONTROLS = {'.OE', '.CLK', '.C', '.AR', '.SP', '.RE', '.PR', '.ACLR', '.ASET', '.AP', '.CE', '.SR',
            '.CLR', '.SET'}

# A special of test vectors, and the levels of the rows that are written for it.
EDGES = {'.K.': '101', '.U.': '01', '.D.': '10'}
