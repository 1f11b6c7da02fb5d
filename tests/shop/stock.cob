       IDENTIFICATION DIVISION.
       PROGRAM-ID. STOCK.
      * Keeps the stock of an article by its movements, and its price.
      *
      * By intent (columns 73 to 80 have the kind):
      *   ZERO   the price of a piece, where an issue left no piece
      *   SIZE   the stock's worth has six digits
      *   CLASS  the price of a receipt isn't tested
      *   TRUN   a count is six digits, the stock five
      * False by intent (NOT behind the kind):
      *   ZERO   PACK is 6 or 12, so that PACK - 9 isn't 0; the analysis
      *          knows only that it is from 6 to 12
       ENVIRONMENT DIVISION.
       INPUT-OUTPUT SECTION.
       FILE-CONTROL.
           SELECT MOVEMENTS ASSIGN TO 'moves.dat'.
       DATA DIVISION.
       FILE SECTION.
       FD MOVEMENTS.
       01 MOVEMENT.
          05 KIND PIC X(2).
             88 IS-RECEIPT VALUE 'RE'.
             88 IS-ISSUE VALUE 'IS'.
             88 IS-COUNT VALUE 'CO'.
          05 PIECES PIC 9(4).
          05 PRICE PIC S9(4)V99 SIGN LEADING SEPARATE.
          05 COUNTED REDEFINES PRICE.
             10 COUNT-NO PIC 9(6).
             10 FILLER PIC X.
       WORKING-STORAGE SECTION.
       01 SWITCHES.
          05 END-SW PIC X VALUE 'N'.
             88 AT-THE-END VALUE 'Y'.
       01 STOCK-NOW.
          05 STOCK-PIECES PIC 9(5) COMP VALUE ZERO.
          05 WORTH PIC S9(6)V99 COMP-3 VALUE ZERO.
          05 MEAN-PRICE PIC S9(9)V99 VALUE ZERO.
          05 PACK PIC 9(2) VALUE 6.
          05 PACKS PIC S9(5) VALUE ZERO.
       PROCEDURE DIVISION.
       MAIN-LINE.
           OPEN INPUT MOVEMENTS.
           PERFORM READ-MOVEMENT.
           PERFORM DO-MOVEMENT UNTIL AT-THE-END.
           COMPUTE PACKS = STOCK-PIECES / (PACK - 9).                   ZERO NOT
           DISPLAY 'PACKS ' PACKS.
           CLOSE MOVEMENTS.
           STOP RUN.
       READ-MOVEMENT.
           READ MOVEMENTS AT END SET AT-THE-END TO TRUE END-READ.
       DO-MOVEMENT.
           EVALUATE TRUE
               WHEN PIECES NOT NUMERIC
                   DISPLAY 'BAD PIECES ' KIND
               WHEN IS-RECEIPT
                   PERFORM DO-RECEIPT
               WHEN IS-ISSUE
                   PERFORM DO-ISSUE
               WHEN IS-COUNT
                   PERFORM DO-COUNT
           END-EVALUATE.
           PERFORM READ-MOVEMENT.
       DO-RECEIPT.
           COMPUTE WORTH = WORTH + PIECES * PRICE.                      CLASSIZE
           ADD PIECES TO STOCK-PIECES
               ON SIZE ERROR DISPLAY 'STOCK FULL'
           END-ADD.
           IF PIECES > 500
               MOVE 12 TO PACK
           END-IF.
       DO-ISSUE.
           IF PIECES NOT > STOCK-PIECES AND PIECES > 0
               SUBTRACT PIECES FROM STOCK-PIECES
               DIVIDE WORTH BY STOCK-PIECES GIVING MEAN-PRICE           ZERO
               DISPLAY 'PRICE NOW ' MEAN-PRICE
           END-IF.
       DO-COUNT.
           IF COUNT-NO NUMERIC
               MOVE COUNT-NO TO STOCK-PIECES                            TRUN
           END-IF.
