       IDENTIFICATION DIVISION.
       PROGRAM-ID. PAYRUN.
       ENVIRONMENT DIVISION.
       INPUT-OUTPUT SECTION.
       FILE-CONTROL.
           SELECT PAY-IN ASSIGN TO PAYIN
               ORGANIZATION IS SEQUENTIAL
               FILE STATUS IS IN-STATUS.
           SELECT PAY-OUT ASSIGN TO PAYOUT.
       DATA DIVISION.
       FILE SECTION.
       FD PAY-IN LABEL RECORDS ARE STANDARD.
       01 HEAD-REC.
          05 HEAD-TYPE PIC X.
          05 HEAD-DATE PIC 9(8).
          05 FILLER PIC X(3).
       01 PAY-REC.
          05 REC-TYPE PIC X.
             88 IS-HEAD VALUE 'H'.
             88 IS-DETAIL VALUE 'D'.
             88 IS-TRAILER VALUE 'T'.
          05 EMP-NO PIC 9(5).
          05 HOURS PIC S9(3)V9 COMP-3.
          05 RATE PIC S9(3)V99 COMP-3.
       01 TRAIL-REC.
          05 FILLER PIC X.
          05 TRAIL-COUNT PIC 9(5).
          05 FILLER PIC X(6).
       FD PAY-OUT.
       01 OUT-REC.
          05 OUT-EMP PIC 9(5).
          05 FILLER PIC X.
          05 OUT-HOURS PIC ZZ9.9.
          05 FILLER PIC X.
          05 OUT-GROSS PIC Z,ZZZ,ZZ9.99.
       01 TOT-REC.
          05 TOT-TEXT PIC X(12).
          05 TOT-GROSS PIC Z,ZZZ,ZZ9.99.
       WORKING-STORAGE SECTION.
       01 SWITCHES.
          05 IN-STATUS PIC XX VALUE '00'.
          05 EOF-SW PIC X VALUE 'N'.
             88 AT-EOF VALUE 'Y'.
       01 COUNTERS.
          05 DETAIL-COUNT PIC 9(5) VALUE ZERO.
          05 BAD-COUNT PIC 9(5) VALUE ZERO.
       01 AMOUNTS.
          05 GROSS PIC 9(7)V99 VALUE ZERO.
          05 TOTAL-GROSS PIC 9(7)V99 VALUE ZERO.
       PROCEDURE DIVISION.
       MAIN-LINE.
           OPEN INPUT PAY-IN.
           IF IN-STATUS NOT = '00'
               DISPLAY 'CANNOT OPEN ' IN-STATUS
               STOP RUN
           END-IF.
           OPEN OUTPUT PAY-OUT.
           PERFORM READ-PAY.
           PERFORM PROCESS-RECORD UNTIL AT-EOF.
           PERFORM WRITE-TOTALS.
           CLOSE PAY-IN PAY-OUT.
           STOP RUN.
       READ-PAY.
           READ PAY-IN
               AT END SET AT-EOF TO TRUE
           END-READ.
       PROCESS-RECORD.
           EVALUATE TRUE
               WHEN IS-HEAD PERFORM DO-HEAD
               WHEN IS-DETAIL
                   PERFORM DO-DETAIL THRU DO-DETAIL-EXIT
               WHEN IS-TRAILER PERFORM DO-TRAILER
               WHEN OTHER PERFORM COUNT-BAD
           END-EVALUATE.
           PERFORM READ-PAY.
       DO-HEAD.
           IF HEAD-DATE IS NUMERIC
               DISPLAY 'RUN DATE ' HEAD-DATE
           ELSE
               PERFORM COUNT-BAD
           END-IF.
       DO-DETAIL.
           IF EMP-NO NOT NUMERIC OR HOURS NOT NUMERIC
               OR RATE NOT NUMERIC
               PERFORM COUNT-BAD
               GO TO DO-DETAIL-EXIT
           END-IF.
           IF HOURS IS NEGATIVE OR RATE IS NEGATIVE
               PERFORM COUNT-BAD
               GO TO DO-DETAIL-EXIT
           END-IF.
           IF HOURS > 40
               COMPUTE GROSS ROUNDED =
                   RATE * (40 + (HOURS - 40) * 1.5)
           ELSE
               MULTIPLY HOURS BY RATE GIVING GROSS ROUNDED
           END-IF.
           ADD GROSS TO TOTAL-GROSS
               ON SIZE ERROR DISPLAY 'TOTAL OVERFLOW'
           END-ADD.
           MOVE SPACES TO OUT-REC.
           MOVE EMP-NO TO OUT-EMP.
           MOVE HOURS TO OUT-HOURS.
           MOVE GROSS TO OUT-GROSS.
           WRITE OUT-REC.
           ADD 1 TO DETAIL-COUNT
               ON SIZE ERROR DISPLAY 'COUNT FULL'
           END-ADD.
       DO-DETAIL-EXIT.
           EXIT.
       DO-TRAILER.
           IF TRAIL-COUNT NUMERIC
               IF TRAIL-COUNT NOT = DETAIL-COUNT
                   DISPLAY 'COUNT DIFFERS'
               END-IF
           ELSE
               PERFORM COUNT-BAD
           END-IF.
       COUNT-BAD.
           ADD 1 TO BAD-COUNT
               ON SIZE ERROR DISPLAY 'TOO MANY BAD'
           END-ADD.
       WRITE-TOTALS.
           MOVE 'TOTAL GROSS ' TO TOT-TEXT.
           MOVE TOTAL-GROSS TO TOT-GROSS.
           WRITE TOT-REC.
           DISPLAY 'DETAILS ' DETAIL-COUNT ' BAD ' BAD-COUNT.
