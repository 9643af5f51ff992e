"""The mnemonics of the text, the assembler's aliases, and what each branch asks of the indicators. A test holds the first to the
table of the text, crates/optext/specs/Rows.antt."""

MNEMONICS = """
NOP RESET IEN IDS HALT XCT BPT WFI RSVC RRTT SAVE SAVS REST RRTN RSTS RTT IAK RTN MSKO PRTN LCC SVCA SVCB SVCC
BR BNE BEQ BGE BLT BGT BLE BPL BMI BHI BLOS BVC BVS BCC BCS ADDI SUBI BICI MOVI SSRR SSLR SSRA SSLA SDRR SDLR SDRA SDLA
ROR ROL TST ASL SET CLR ASR SWAB COM NEG INC DEC IW2 SXT TCALL TJMP RORB ROLB TSTB ASLB SETB CLRB ASRB SWAD COMB NEGB
INCB DECB LSTS SSTS ADC SBC MBWU MBWD MBBU MBBD MBWA MBBA MABW MABB JSR LEA ASH SOB XCH ASHC MUL DIV
ADD SUB AND BIC BIS XOR CMP BIT MOV CMPB MOVB BISB
""".split()

# An alias and its space, and what stands for both in the text of an op code.
ALIASES = {"BHIS ": "BCC ", "BLO ": "BCS ", "CALL ": "JSR PC,", "JMP ": "LEA PC,"}

# Each branch, and when it is taken.
BRANCHES = {
    "BR": "always taken",
    "BNE": "taken if Z=0",
    "BEQ": "taken if Z=1",
    "BGE": "taken if N=V",
    "BLT": "taken if N and V differ",
    "BGT": "taken if Z=0 and N=V",
    "BLE": "taken if Z=1 or N and V differ",
    "BPL": "taken if N=0",
    "BMI": "taken if N=1",
    "BHI": "taken if C=0 and Z=0",
    "BLOS": "taken if C=1 or Z=1",
    "BVC": "taken if V=0",
    "BVS": "taken if V=1",
    "BCC": "taken if C=0",
    "BCS": "taken if C=1",
}
