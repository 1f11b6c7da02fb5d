       IDENTIFICATION DIVISION.
       PROGRAM-ID. VALIDATE.
      * Looks over a batch of orders: a head record, details, and a
      * trailer with their number and the sum of their amounts.
      *
      * By intent (columns 73 to 80 have the kind):
      *   CLASS  a trailer's number is compared without a test
      *   TRUN   an article of a detail has four digits, its code three
      *   ZERO   the price of a piece, where a detail has 0 pieces
      *   ZERO   the mean of a batch whose number and sum are right:
      *          the trailer's parcels may be 0
      * False by intent (NOT behind the kind):
      *   SIZE   an account less ten times its tens has one digit
       ENVIRONMENT DIVISION.
       INPUT-OUTPUT SECTION.
       FILE-CONTROL.
           SELECT BATCH ASSIGN TO BATCH
               FILE STATUS IS BATCH-STATUS.
       DATA DIVISION.
       FILE SECTION.
       FD BATCH RECORD CONTAINS 20 CHARACTERS.
       01 HEAD-REC.
          05 H-TYPE PIC X.
          05 H-BATCH PIC 9(4).
          05 FILLER PIC X(15).
       01 DETAIL-REC.
          05 D-TYPE PIC X.
             88 IS-HEAD VALUE 'H'.
             88 IS-DETAIL VALUE 'D'.
             88 IS-TRAILER VALUE 'T'.
          05 D-ACCOUNT PIC 9(6).
          05 D-ARTICLE PIC 9(4).
          05 D-PIECES PIC 9(3).
          05 D-AMOUNT PIC 9(4)V99.
       01 TRAILER-REC.
          05 T-TYPE PIC X.
          05 T-NUMBER PIC 9(5).
          05 T-SUM PIC 9(7)V99.
          05 T-PARCELS PIC 9(3).
          05 FILLER PIC X(2).
       WORKING-STORAGE SECTION.
       01 SWITCHES.
          05 BATCH-STATUS PIC XX VALUE '00'.
          05 STATE PIC 9 VALUE 0.
       01 COUNTS.
          05 DETAILS PIC 9(5) VALUE ZERO.
          05 DETAIL-SUM PIC 9(7)V99 VALUE ZERO.
          05 ERRORS PIC 9(5) VALUE ZERO.
       01 WORK.
          05 TENS PIC 9(5) VALUE ZERO.
          05 CHECK-DIGIT PIC 9 VALUE ZERO.
          05 CODE-NO PIC 9(3) VALUE ZERO.
          05 PIECE-PRICE PIC 9(4)V99 VALUE ZERO.
          05 PARCEL-MEAN PIC 9(7)V99 VALUE ZERO.
       PROCEDURE DIVISION.
       MAIN-LINE.
           OPEN INPUT BATCH.
           IF BATCH-STATUS NOT = '00'
               DISPLAY 'NO BATCH ' BATCH-STATUS
               STOP RUN
           END-IF.
           PERFORM UNTIL STATE = 9
               READ BATCH
                   AT END
                       IF STATE NOT = 2
                           DISPLAY 'NO TRAILER'
                       END-IF
                       MOVE 9 TO STATE
                   NOT AT END
                       PERFORM LOOK-AT-RECORD
               END-READ
           END-PERFORM.
           DISPLAY 'DETAILS ' DETAILS ' ERRORS ' ERRORS.
           CLOSE BATCH.
           STOP RUN.
       LOOK-AT-RECORD.
           EVALUATE TRUE
               WHEN IS-HEAD AND STATE = 0
                   MOVE 1 TO STATE
               WHEN IS-DETAIL AND STATE = 1
                   PERFORM LOOK-AT-DETAIL
               WHEN IS-TRAILER AND STATE = 1
                   PERFORM LOOK-AT-TRAILER
                   MOVE 2 TO STATE
               WHEN OTHER
                   PERFORM COUNT-ERROR
           END-EVALUATE.
       LOOK-AT-DETAIL.
           IF D-ACCOUNT NOT NUMERIC OR D-ARTICLE NOT NUMERIC
               OR D-PIECES NOT NUMERIC OR D-AMOUNT NOT NUMERIC
               PERFORM COUNT-ERROR
           ELSE
               DIVIDE D-ACCOUNT BY 10 GIVING TENS
               COMPUTE CHECK-DIGIT = D-ACCOUNT - TENS * 10              SIZE NOT
               IF CHECK-DIGIT NOT = 7
                   PERFORM COUNT-ERROR
               ELSE
                   MOVE D-ARTICLE TO CODE-NO                            TRUN
                   DIVIDE D-AMOUNT BY D-PIECES GIVING PIECE-PRICE       ZERO
                   DISPLAY CODE-NO ' AT ' PIECE-PRICE
                   ADD D-AMOUNT TO DETAIL-SUM
                       ON SIZE ERROR DISPLAY 'SUM IS FULL'
                   END-ADD
                   ADD 1 TO DETAILS
                       ON SIZE ERROR DISPLAY 'TOO MANY DETAILS'
                   END-ADD
               END-IF
           END-IF.
       LOOK-AT-TRAILER.
           IF T-NUMBER NOT = DETAILS                                    CLAS
               DISPLAY 'WRONG NUMBER ' T-NUMBER
           ELSE
               IF T-SUM NUMERIC AND T-PARCELS NUMERIC
                   AND T-SUM = DETAIL-SUM AND T-SUM > 0
                   DIVIDE T-SUM BY T-PARCELS GIVING PARCEL-MEAN         ZERO
                   DISPLAY 'MEAN OF PARCELS ' PARCEL-MEAN
               END-IF
           END-IF.
       COUNT-ERROR.
           ADD 1 TO ERRORS
               ON SIZE ERROR DISPLAY 'TOO MANY ERRORS'
           END-ADD.
