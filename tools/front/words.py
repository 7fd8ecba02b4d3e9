"""01's rules and refusals in plain words."""

REFUSALS = {
    1: 'the header is not 6 bytes', 2: 'the edition is neither 1 nor 2', 3: 'a zero field of the header is not zero',
    4: "the period is under the bin's least, or over 3300 ps", 5: 'the file does not end between records', 6: "the record's step is 0",
    7: 'the records pass the limit of 1,048,576', 8: 'the end edge is above 2^44', 13: 'a record has RESET 0, the second CS 0 or ODT 1',
    14: 'a bit of the record that must be 0 is 1', 17: 'a count is out of range',
}

OF_RANK = {'1': 'first rank', '2': 'second rank'}

TROUBLES = {'unopened': 'it cannot be opened', 'unread': 'it cannot be read to its end', 'empty': 'it is empty'}

# In a word, for one line.
NAMES = {
    1: 'CKE change', 2: 'bank state', 3: 'registers', 4: 'tRCD', 5: 'tRP', 6: 'tRC', 7: 'tRRD', 8: 'tFAW', 9: 'tRAS', 10: 'AL + tRTP', 11: 'WL + h + tWR',
    12: 'column to column', 13: 'RD to WR', 14: 'WR to RD', 15: 'tRFC', 16: 'tMRD', 17: 'tMOD', 18: 'ZQ time', 19: 'RL + b', 20: 'DLL', 21: 'tXS', 22: 'tCKE + 1',
    23: 'REF between SRX and SRE', 24: 'greatest tRAS', 25: 'refresh debt', 26: 'power-down entry', 27: 'tCKE', 28: 'greatest stay', 29: 'tXP', 30: 'tXPDLL',
    31: 'nine intervals',
}

RULES = {
    1: 'CKE changes only to enter or leave self-refresh or power-down',
    2: 'an ACT needs an idle bank, RD and WR an open one, REF, MRS, ZQ and SRE all banks idle, a PRE no closing bank',
    3: 'an MRS needs an allowed code and BA below 4, an ACT all four registers written, a RD a DLL reset',
    4: 'from an ACT to a RD or WR of its bank at least tRCD - AL, and 1',
    5: 'from the start of a precharge to an ACT of its bank, or to REF, MRS, ZQ or SRE, at least tRP',
    6: 'from an ACT to the next of its bank at least tRC',
    7: 'from an ACT to the next of any bank at least tRRD',
    8: 'from the fourth ACT back to an ACT at least tFAW',
    9: 'from an ACT to a PRE that covers its bank at least tRAS',
    10: 'from a RD to a PRE that covers its bank at least AL + tRTP',
    11: 'from a WR to a PRE that covers its bank at least WL + h + tWR',
    12: 'from a RD to a RD, or a WR to a WR, at least 4 clocks',
    13: 'from a RD to a WR at least CL - CWL + 2 + b',
    14: 'from a WR to a RD at least CWL + h + tWTR',
    15: 'from a REF to any command at least tRFC',
    16: 'from an MRS to the next at least 4 clocks',
    17: 'from an MRS to another command at least tMOD',
    18: 'from a ZQ to any command at least its time',
    19: 'from a RD to an MRS or SRE at least RL + b',
    20: 'from a DLL reset or SRX to a RD at least 512 clocks',
    21: 'from an SRX to any command at least tXS',
    22: 'from an SRE to its SRX at least tCKE + 1',
    23: 'between an SRX and the next SRE there is a REF',
    24: "a bank's precharge starts no later than its ACT and the greatest tRAS",
    25: 'the refresh debt stays below 9',
    26: 'from a RD to a power-down entry at least RL + 5, from a WR WL + h + tWR, from one with auto precharge WL + h + WR + 1, from an MRS tMOD',
    27: 'from a change of CKE to the next at least tCKE',
    28: "a power-down ends no later than its entry and nine times tREFI's clocks",
    29: 'from a power-down exit to any command at least tXP',
    30: 'from the exit of a precharge power-down, with A12 = 0 in MR0, to a RD at least tXPDLL',
    31: "no two REFs are farther apart than nine times tREFI's clocks on the awake clock",
}
