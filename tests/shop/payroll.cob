       IDENTIFICATION DIVISION.
       PROGRAM-ID. PAYROLL.
      * Weekly pay of each department's people, with a total and an
      * average for each department, and one total at the end.
      *
      * By intent (columns 73 to 80 have the kind):
      *   CLASS  GROSS: nothing tests the rate, only the hours
      *   SIZE   GROSS: four digits, and 99 hours at 999.99 are more
      *   SIZE   DEPT-TOTAL: five digits, eleven people fill it
      *   TRUN   the total's field in the line has four digits
      * False by intent (NOT behind the kind):
      *   ZERO   AVERAGE: a department ends only behind its first
      *          record, so that DEPT-COUNT is 1 or more; FIRST-SW says
      *          so, and the analysis doesn't know what it says
       ENVIRONMENT DIVISION.
       INPUT-OUTPUT SECTION.
       FILE-CONTROL.
           SELECT CARDS ASSIGN TO CARDS.
           SELECT PAY ASSIGN TO PAY.
       DATA DIVISION.
       FILE SECTION.
       FD CARDS LABEL RECORDS ARE STANDARD.
       01 TIME-REC.
          05 T-DEPT PIC X(3).
          05 T-EMPLOYEE PIC 9(5).
          05 T-HOURS PIC 99V99.
          05 T-RATE PIC 9(3)V99.
       FD PAY LABEL RECORDS ARE STANDARD.
       01 PAY-REC.
          05 P-DEPT PIC X(3).
          05 FILLER PIC X.
          05 P-TOTAL PIC Z,ZZ9.99.
          05 FILLER PIC X.
          05 P-AVERAGE PIC ZZ,ZZ9.99.
       WORKING-STORAGE SECTION.
       01 SWITCHES.
          05 END-SW PIC X VALUE 'N'.
             88 AT-THE-END VALUE 'Y'.
          05 FIRST-SW PIC X VALUE 'Y'.
             88 IS-FIRST VALUE 'Y'.
       01 LAST-DEPT PIC X(3) VALUE SPACES.
       01 SUMS.
          05 GROSS PIC 9(4)V99 VALUE ZERO.
          05 DEPT-COUNT PIC 9(5) VALUE ZERO.
          05 DEPT-TOTAL PIC 9(5)V99 VALUE ZERO.
          05 AVERAGE PIC 9(5)V99 VALUE ZERO.
          05 BAD-COUNT PIC 9(5) VALUE ZERO.
       PROCEDURE DIVISION.
       MAIN-LINE.
           OPEN INPUT CARDS OUTPUT PAY.
           PERFORM READ-TIME.
           PERFORM DO-TIME UNTIL AT-THE-END.
           IF NOT IS-FIRST
               PERFORM END-OF-DEPT
           END-IF.
           DISPLAY 'BAD RECORDS ' BAD-COUNT.
           CLOSE CARDS PAY.
           STOP RUN.
       READ-TIME.
           READ CARDS AT END SET AT-THE-END TO TRUE END-READ.
       DO-TIME.
           IF T-HOURS NOT NUMERIC
               ADD 1 TO BAD-COUNT
                   ON SIZE ERROR DISPLAY 'TOO MANY BAD RECORDS'
               END-ADD
           ELSE
               IF NOT IS-FIRST AND T-DEPT NOT = LAST-DEPT
                   PERFORM END-OF-DEPT
               END-IF
               MOVE 'N' TO FIRST-SW
               MOVE T-DEPT TO LAST-DEPT
               PERFORM PAY-EMPLOYEE
           END-IF.
           PERFORM READ-TIME.
       PAY-EMPLOYEE.
      * Overtime begins behind 40 hours.
           IF T-HOURS > 40
               COMPUTE GROSS ROUNDED =                                  CLASSIZE
                   T-RATE * (40 + (T-HOURS - 40) * 1.5)
           ELSE
               COMPUTE GROSS ROUNDED = T-HOURS * T-RATE                 CLASSIZE
           END-IF.
           ADD GROSS TO DEPT-TOTAL.                                     SIZE
           ADD 1 TO DEPT-COUNT
               ON SIZE ERROR DISPLAY 'TOO MANY PEOPLE ' LAST-DEPT
           END-ADD.
       END-OF-DEPT.
           DIVIDE DEPT-TOTAL BY DEPT-COUNT GIVING AVERAGE ROUNDED.      ZERO NOT
           MOVE SPACES TO PAY-REC.
           MOVE LAST-DEPT TO P-DEPT.
           MOVE DEPT-TOTAL TO P-TOTAL.                                  TRUN
           MOVE AVERAGE TO P-AVERAGE.
           WRITE PAY-REC.
           MOVE ZERO TO DEPT-TOTAL DEPT-COUNT.
