"""What hitch help prints."""

HELP = """\
hitch: the programs of this repository, proved and built on first use

  hitch run [--unproved] [--asm SOURCE] [--words] [--dump FIRST-LAST] [JOB]
                                  runs a job and prints bench's line: R0 to R5, SP, PC, PS, the mode, the
                                  number of steps that met a blank, the first one's place and its address;
                                  with SOURCE, a patch in mnemonics, JOB is text, and the words of SOURCE go
                                  among its own by address; a word at the same address is replaced;
                                  --words tells the line in words, --dump the memory after the run
  hitch trace [--unproved] [--asm SOURCE] [--blanks] JOB [FROM-TO]
                                  shows a job step by step, a line each: the step, its line word, the op code's address, words
                                  and text, the registers, PS and mode that changed, the words written, and the cause in
                                  words unless it is 0, with a blank's address and page; FROM-TO are steps, counted
                                  from 0; --blanks shows only the steps that met a blank
  hitch text [--unproved] [FILE]  reads each line as the text of an op code and prints its words, or writes the one to three
                                  words of an op code, of four hex digits each, as text; letters are upper case; a refused
                                  line is printed with a mark under its column
  hitch list [--unproved] [--asm SOURCE] [--labels] JOB FIRST LAST
                                  lists the job's image from the address FIRST to the address LAST, in hex: address,
                                  words, text, one op code a line; nothing is run; --labels adds labels, where a branch
                                  goes to and when, and folds what is not fitted and zeros
  hitch record [--unproved] [--asm SOURCE] [--picture] [SCANS]
                                  runs a job, makes the scans of the plug recorder, and prints the report of each channel:
                                  its readings, its blanks, the lowest, the highest and the average, as sum and number;
                                  and the processor's mode and blanks; --picture adds a strip of the scans for each channel
  hitch asm [--unproved] [SOURCE] assembles a patch, lines of up to 32 characters each, into the word section of a job
  hitch check-trace [--unproved] [--asm SOURCE] JOB TRACE
                                  compares another shop's trace of a job with the processor: accepted, or the
                                  first wrong step, its first wrong field, what stands there and what is right
  hitch make-trace [--unproved] [--asm SOURCE] [JOB]
                                  writes a job's trace, the bytes that check-trace accepts
  hitch job [--unproved] [--asm SOURCE] [JOB]
                                  writes a job's bytes, and with scans those that the program record takes
  hitch desk                      makes target/desk.html, the desk in a browser
  hitch release [--unproved]      makes dist/, what a shop takes away
  hitch version                   prints the version
  hitch help                      prints this

JOB is a file, or - for standard input, as without JOB. It is a job's bytes if one of its bytes is 00, as
in every job that is not refused, and if it is empty; else it is text, as jobs/README.md tells it: pages, line
words, the program in mnemonics, and the board. SCANS is a
job and its scans, in the same way. TRACE is a file of bytes. A text is UTF-8, or UTF-16 with its mark, and
its lines end with LF, CR LF or CR, for every command.

The first use proves what the program stands on, which takes minutes, with a line for each crate on
standard error; what was proved stays in target/ until a file is changed. --unproved takes the program
that rt try compiles in seconds: nothing of it is proved.

Status: 0 done; 1 refused, by number or in words, with the place on standard error, or a trace that is
wrong; 2 wrong use; 3 what is needed was not proved or not built, or the answer could not be written.
It needs rt, the Rattle kit's command, and python3.
"""
