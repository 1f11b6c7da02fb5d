       IDENTIFICATION DIVISION.
       PROGRAM-ID. LOAN-PLAN.
      * The plan of each loan: interest and what is paid back, month by
      * month.
      *
      * By intent (columns 73 to 80 have the kind):
      *   ZERO   the month's share of a loan for 0 months
      *   CLASS  the rate isn't tested
      *   SIZE   a year's interest has four digits
      *   SIZE   the month has three digits, and a loan of 999 months
      *          takes it to 1000
      * False by intent (NOT behind the kind):
      *   SIZE   QUARTERS: a loop of four turns takes it to 4, and two
      *          digits hold that; the analysis doesn't count turns
       ENVIRONMENT DIVISION.
       INPUT-OUTPUT SECTION.
       FILE-CONTROL.
           SELECT LOANS ASSIGN TO LOANS.
       DATA DIVISION.
       FILE SECTION.
       FD LOANS.
       01 LOAN-REC.
          05 L-NUMBER PIC X(6).
          05 L-AMOUNT PIC 9(6)V99.
          05 L-RATE PIC 9(2)V99.
          05 L-MONTHS PIC 9(3).
       WORKING-STORAGE SECTION.
       01 SWITCHES.
          05 END-SW PIC X VALUE 'N'.
             88 AT-THE-END VALUE 'Y'.
       01 LOAN.
          05 LOAN-NUMBER PIC X(6).
          05 BALANCE PIC 9(6)V99.
          05 RATE PIC 9(2)V99.
          05 MONTHS PIC 9(3).
       01 WORK.
          05 MONTH-NO PIC 9(3) VALUE ZERO.
          05 SHARE PIC 9(6)V99 VALUE ZERO.
          05 YEAR-INTEREST PIC 9(4)V99 VALUE ZERO.
          05 INTEREST PIC 9(4)V99 VALUE ZERO.
          05 QUARTERS PIC 9(2) VALUE ZERO.
       PROCEDURE DIVISION.
       MAIN-LINE.
           OPEN INPUT LOANS.
           PERFORM READ-LOAN.
           PERFORM DO-LOAN UNTIL AT-THE-END.
           CLOSE LOANS.
           STOP RUN.
       READ-LOAN.
           READ LOANS INTO LOAN
               AT END SET AT-THE-END TO TRUE
           END-READ.
       DO-LOAN.
           IF BALANCE NUMERIC AND MONTHS NUMERIC
               DIVIDE BALANCE BY MONTHS GIVING SHARE                    ZERO
               COMPUTE YEAR-INTEREST ROUNDED = BALANCE * RATE / 100     CLASSIZE
               PERFORM SHOW-QUARTERS
               PERFORM DO-MONTH VARYING MONTH-NO FROM 1 BY 1            SIZE
                   UNTIL MONTH-NO > MONTHS
           END-IF.
           PERFORM READ-LOAN.
       SHOW-QUARTERS.
           MOVE ZERO TO QUARTERS.
           PERFORM 4 TIMES
               ADD 1 TO QUARTERS                                        SIZE NOT
               DISPLAY LOAN-NUMBER ' QUARTER ' QUARTERS
           END-PERFORM.
       DO-MONTH.
           COMPUTE INTEREST ROUNDED = YEAR-INTEREST / 12.
           IF SHARE > BALANCE
               MOVE ZERO TO BALANCE
           ELSE
               SUBTRACT SHARE FROM BALANCE
           END-IF.
           IF MONTH-NO = 1
               DISPLAY LOAN-NUMBER ' INTEREST ' INTEREST
           END-IF.
