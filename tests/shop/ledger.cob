       IDENTIFICATION DIVISION.
       PROGRAM-ID. LEDGER.
      * Prints the postings of a ledger, sixty lines a page, with the
      * balance of each account.
      *
      * By intent (columns 73 to 80 have the kind):
      *   SIZE   PAGE-NO has one digit: the tenth page ends with record
      *          600, and no shorter file fills it
      *   CLASS  the amount of a credit isn't tested, that of a debit is
      *   TRUN   the tail of an account has four digits for its credits
      *   ZERO   the share of debits, where an account has none
      * False by intent (NOT behind the kind):
      *   SIZE   PERCENT: a part times 100 by a whole that isn't less
      *          is 100 at most
       ENVIRONMENT DIVISION.
       INPUT-OUTPUT SECTION.
       FILE-CONTROL.
           SELECT POSTINGS ASSIGN TO POSTINGS.
           SELECT PRINT ASSIGN TO PRINT.
       DATA DIVISION.
       FILE SECTION.
       FD POSTINGS.
       01 POSTING.
          05 ACCOUNT PIC X(4).
          05 SIDE PIC X.
             88 IS-DEBIT VALUE 'D'.
             88 IS-CREDIT VALUE 'C'.
          05 AMOUNT PIC 9(4)V99.
       FD PRINT.
       01 PRINT-LINE.
          05 L-ACCOUNT PIC X(4).
          05 FILLER PIC X.
          05 L-AMOUNT PIC Z,ZZ9.99.
          05 FILLER PIC X.
          05 L-SIDE PIC X.
       01 TAIL-LINE.
          05 FILLER PIC X(5).
          05 L-CREDITS PIC Z,ZZ9.99.
          05 FILLER PIC X(2).
       WORKING-STORAGE SECTION.
       01 SWITCHES.
          05 END-SW PIC X VALUE 'N'.
             88 AT-THE-END VALUE 'Y'.
       01 LAST-ACCOUNT PIC X(4) VALUE LOW-VALUES.
       01 COUNTS.
          05 LINE-NO PIC 9(2) VALUE ZERO.
          05 PAGE-NO PIC 9 VALUE ZERO.
       01 SUMS.
          05 DEBITS PIC 9(7)V99 VALUE ZERO.
          05 CREDITS PIC 9(7)V99 VALUE ZERO.
          05 SHARE PIC 9(11)V99 VALUE ZERO.
          05 PERCENT PIC 9(3) VALUE ZERO.
       PROCEDURE DIVISION.
       MAIN-LINE.
           OPEN INPUT POSTINGS OUTPUT PRINT.
           PERFORM READ-POSTING.
           PERFORM DO-POSTING UNTIL AT-THE-END.
           PERFORM END-OF-ACCOUNT.
           CLOSE POSTINGS PRINT.
           STOP RUN.
       READ-POSTING.
           READ POSTINGS AT END SET AT-THE-END TO TRUE END-READ.
       DO-POSTING.
           IF ACCOUNT NOT = LAST-ACCOUNT
               IF LAST-ACCOUNT NOT = LOW-VALUES
                   PERFORM END-OF-ACCOUNT
               END-IF
               MOVE ACCOUNT TO LAST-ACCOUNT
           END-IF.
           MOVE SPACES TO PRINT-LINE.
           EVALUATE TRUE
               WHEN IS-DEBIT AND AMOUNT NUMERIC
                   ADD AMOUNT TO DEBITS
                       ON SIZE ERROR DISPLAY 'DEBITS FULL ' ACCOUNT
                   END-ADD
                   MOVE AMOUNT TO L-AMOUNT
               WHEN IS-CREDIT
                   ADD AMOUNT TO CREDITS                                CLAS
                       ON SIZE ERROR DISPLAY 'CREDITS FULL ' ACCOUNT
                   END-ADD
               WHEN OTHER
                   DISPLAY 'BAD POSTING ' ACCOUNT
           END-EVALUATE.
           MOVE ACCOUNT TO L-ACCOUNT.
           MOVE SIDE TO L-SIDE.
           WRITE PRINT-LINE.
           ADD 1 TO LINE-NO
               ON SIZE ERROR DISPLAY 'LONG PAGE'
           END-ADD.
           IF LINE-NO = 60
               ADD 1 TO PAGE-NO                                         SIZE
               MOVE ZERO TO LINE-NO
           END-IF.
           PERFORM READ-POSTING.
       END-OF-ACCOUNT.
           IF CREDITS > DEBITS
               DIVIDE CREDITS BY DEBITS GIVING SHARE                    ZERO
               DISPLAY LAST-ACCOUNT ' SHARE ' SHARE
           ELSE
               IF DEBITS > 0
                   COMPUTE PERCENT = CREDITS * 100 / DEBITS             SIZE NOT
                   DISPLAY LAST-ACCOUNT ' PERCENT ' PERCENT
               END-IF
           END-IF.
           MOVE SPACES TO TAIL-LINE.
           MOVE CREDITS TO L-CREDITS.                                   TRUN
           WRITE TAIL-LINE.
           MOVE ZERO TO DEBITS CREDITS.
