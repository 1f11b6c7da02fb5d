       IDENTIFICATION DIVISION.
       PROGRAM-ID. MERGE-SALES.
      * Merges the sales of two shops, each rising by its article.
      *
      * By intent (columns 73 to 80 have the kind):
      *   CLASS  an article of shop A is compared without a test
      *   CLASS  so is one of shop B
      *   TRUN   a sale has five digits for pieces, the merged one four
      *   SIZE   the merged amount has six digits
      *   CLASS  the price of a sale isn't tested
      *   ZERO   the mean of all sales, where there was none
      * False by intent (NOT behind the kind):
      *   CLASS  A-LAST has no VALUE, and is compared only behind the
      *          first sale of A, which put a number there; FIRST-SW
      *          says so
       ENVIRONMENT DIVISION.
       INPUT-OUTPUT SECTION.
       FILE-CONTROL.
           SELECT SHOP-A ASSIGN TO SHOPA.
           SELECT SHOP-B ASSIGN TO SHOPB.
           SELECT MERGED ASSIGN TO MERGED.
       DATA DIVISION.
       FILE SECTION.
       FD SHOP-A.
       01 A-SALE.
          05 A-ARTICLE PIC 9(5).
          05 A-PIECES PIC 9(5).
          05 A-PRICE PIC 9(3)V99.
       FD SHOP-B.
       01 B-SALE.
          05 B-ARTICLE PIC 9(5).
          05 B-PIECES PIC 9(5).
          05 B-PRICE PIC 9(3)V99.
       FD MERGED.
       01 M-SALE.
          05 M-ARTICLE PIC 9(5).
          05 M-PIECES PIC 9(4).
          05 M-AMOUNT PIC 9(6)V99.
       WORKING-STORAGE SECTION.
       01 SWITCHES.
          05 A-SW PIC X VALUE 'N'.
             88 A-AT-END VALUE 'Y'.
          05 B-SW PIC X VALUE 'N'.
             88 B-AT-END VALUE 'Y'.
          05 FIRST-SW PIC X VALUE 'Y'.
       01 A-LAST PIC 9(5).
       01 SALE.
          05 S-ARTICLE PIC 9(5).
          05 S-PIECES PIC 9(5).
          05 S-PRICE PIC 9(3)V99.
       01 SUMS.
          05 AMOUNT PIC 9(6)V99 VALUE ZERO.
          05 PIECES PIC 9(4) VALUE ZERO.
          05 TOTAL PIC 9(9)V99 VALUE ZERO.
          05 SALES PIC 9(5) VALUE ZERO.
          05 MEAN PIC 9(9)V99 VALUE ZERO.
       PROCEDURE DIVISION.
       MAIN-LINE.
           OPEN INPUT SHOP-A SHOP-B OUTPUT MERGED.
           PERFORM READ-A.
           PERFORM READ-B.
           PERFORM TAKE-ONE UNTIL A-AT-END AND B-AT-END.
           DIVIDE TOTAL BY SALES GIVING MEAN.                           ZERO
           DISPLAY 'SALES ' SALES ' MEAN ' MEAN.
           CLOSE SHOP-A SHOP-B MERGED.
           STOP RUN.
       READ-A.
           READ SHOP-A
               AT END SET A-AT-END TO TRUE
               NOT AT END PERFORM CHECK-ORDER
           END-READ.
       READ-B.
           READ SHOP-B AT END SET B-AT-END TO TRUE END-READ.
       CHECK-ORDER.
           IF A-ARTICLE NUMERIC
               IF FIRST-SW = 'N'
                   IF A-ARTICLE < A-LAST                                CLAS NOT
                       DISPLAY 'OUT OF ORDER ' A-ARTICLE
                   END-IF
               END-IF
               MOVE A-ARTICLE TO A-LAST
               MOVE 'N' TO FIRST-SW
           END-IF.
       TAKE-ONE.
           EVALUATE TRUE                                                CLAS
               WHEN A-AT-END
                   PERFORM TAKE-B
               WHEN B-AT-END
                   PERFORM TAKE-A
               WHEN A-ARTICLE NOT > B-ARTICLE
                   PERFORM TAKE-A
               WHEN OTHER
                   PERFORM TAKE-B
           END-EVALUATE.
       TAKE-A.
           MOVE A-SALE TO SALE.
           PERFORM WRITE-SALE.
           PERFORM READ-A.
       TAKE-B.
           MOVE B-SALE TO SALE.
           PERFORM WRITE-SALE.
           PERFORM READ-B.
       WRITE-SALE.
           IF S-PIECES NUMERIC AND S-ARTICLE NUMERIC
               MOVE S-PIECES TO PIECES                                  TRUN
               COMPUTE AMOUNT = PIECES * S-PRICE                        CLASSIZE
               MOVE S-ARTICLE TO M-ARTICLE
               MOVE PIECES TO M-PIECES
               MOVE AMOUNT TO M-AMOUNT
               WRITE M-SALE
               ADD AMOUNT TO TOTAL
                   ON SIZE ERROR DISPLAY 'TOTAL FULL'
               END-ADD
               ADD 1 TO SALES
                   ON SIZE ERROR DISPLAY 'SALES FULL'
               END-ADD
           END-IF.
