; A patch on any job: the loop of sob.txt from 0080 on, with the vector of power-up.
        .ORG 0016
        .WORD START
        .ORG 0080
START:  MOV #0005,R1
AGAIN:  ADD R1,R0
        INC R2
        SOB R1,AGAIN
DONE:   BR DONE
