       IDENTIFICATION DIVISION.
       PROGRAM-ID. BILLS.
      * Telephone bills, a record for each customer and tariff.
      *
      * By intent (columns 73 to 80 have the kind):
      *   SIZE   AMOUNT has four digits: 9,999 minutes abroad are more
      *   TRUN   the bill's field has three digits
      *   ZERO   the mean of a call, where there was none
      *   SIZE   the same, where one call took it all: two digits
      * False by intent (NOT behind the kind):
      *   CLASS  READ-USE tests what it reads, and says so by VALID-SW;
      *          the analysis doesn't know what the switch says
       ENVIRONMENT DIVISION.
       INPUT-OUTPUT SECTION.
       FILE-CONTROL.
           SELECT USES ASSIGN TO USES.
           SELECT BILLS ASSIGN TO BILLS.
       DATA DIVISION.
       FILE SECTION.
       FD USES.
       01 USE-REC.
          05 U-CUSTOMER PIC X(6).
          05 U-TARIFF PIC X.
             88 IS-LOCAL VALUE 'L'.
             88 IS-NATIONAL VALUE 'N'.
             88 IS-ABROAD VALUE 'A'.
          05 U-MINUTES PIC 9(4) COMP-3.
          05 U-CALLS PIC 9(3) COMP.
       FD BILLS.
       01 BILL-REC.
          05 B-CUSTOMER PIC X(6).
          05 B-AMOUNT PIC ZZ9.99.
          05 B-MEAN PIC Z9.99.
       WORKING-STORAGE SECTION.
       01 SWITCHES.
          05 END-SW PIC X VALUE 'N'.
             88 AT-THE-END VALUE 'Y'.
          05 VALID-SW PIC X VALUE 'N'.
             88 IS-VALID VALUE 'Y'.
       01 RATES.
          05 LOCAL-RATE PIC 9V999 VALUE 0.025.
          05 NATIONAL-RATE PIC 9V999 VALUE 0.080.
          05 ABROAD-RATE PIC 9V999 VALUE 1.450.
       01 AMOUNTS.
          05 MINUTES PIC 9(4) VALUE ZERO.
          05 RATE PIC 9V999 VALUE ZERO.
          05 AMOUNT PIC 9(4)V99 VALUE ZERO.
          05 CALL-MEAN PIC 9(2)V99 VALUE ZERO.
          05 BAD-COUNT PIC 9(4) VALUE ZERO.
       PROCEDURE DIVISION.
       MAIN-LINE.
           OPEN INPUT USES OUTPUT BILLS.
           PERFORM READ-USE.
           PERFORM DO-USE UNTIL AT-THE-END.
           DISPLAY 'BAD RECORDS ' BAD-COUNT.
           CLOSE USES BILLS.
           STOP RUN.
       READ-USE.
           READ USES
               AT END
                   SET AT-THE-END TO TRUE
               NOT AT END
                   IF U-MINUTES NUMERIC AND U-CALLS NUMERIC
                       MOVE 'Y' TO VALID-SW
                   ELSE
                       MOVE 'N' TO VALID-SW
                   END-IF
           END-READ.
       DO-USE.
           EVALUATE TRUE
               WHEN NOT IS-VALID
                   PERFORM COUNT-BAD
               WHEN IS-LOCAL
                   MOVE LOCAL-RATE TO RATE
                   PERFORM WRITE-BILL
               WHEN IS-NATIONAL
                   MOVE NATIONAL-RATE TO RATE
                   PERFORM WRITE-BILL
               WHEN IS-ABROAD
                   MOVE ABROAD-RATE TO RATE
                   PERFORM WRITE-BILL
               WHEN OTHER
                   PERFORM COUNT-BAD
           END-EVALUATE.
           PERFORM READ-USE.
       WRITE-BILL.
           MOVE U-MINUTES TO MINUTES.                                   CLAS NOT
           COMPUTE AMOUNT ROUNDED = MINUTES * RATE.                     SIZE
           IF U-CALLS NUMERIC
               DIVIDE AMOUNT BY U-CALLS GIVING CALL-MEAN                ZEROSIZE
           END-IF.
           MOVE U-CUSTOMER TO B-CUSTOMER.
           MOVE AMOUNT TO B-AMOUNT.                                     TRUN
           MOVE CALL-MEAN TO B-MEAN.
           WRITE BILL-REC.
       COUNT-BAD.
           ADD 1 TO BAD-COUNT
               ON SIZE ERROR DISPLAY 'TOO MANY BAD RECORDS'
           END-ADD.
