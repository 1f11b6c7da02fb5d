       IDENTIFICATION DIVISION.
       PROGRAM-ID. PRICES.
      * Reads a price by its key; indexed files aren't of the profile.
       ENVIRONMENT DIVISION.
       INPUT-OUTPUT SECTION.
       FILE-CONTROL.
           SELECT PRICE-FILE ASSIGN TO PRICES
               ORGANIZATION IS INDEXED
               ACCESS MODE IS RANDOM
               RECORD KEY IS PRICE-KEY.
       DATA DIVISION.
       FILE SECTION.
       FD PRICE-FILE.
       01 PRICE-REC.
          05 PRICE-KEY PIC X(8).
          05 PRICE PIC 9(3)V99.
       PROCEDURE DIVISION.
       MAIN-LINE.
           OPEN INPUT PRICE-FILE.
           MOVE 'A0000001' TO PRICE-KEY.
           READ PRICE-FILE
               INVALID KEY DISPLAY 'NO PRICE'
           END-READ.
           CLOSE PRICE-FILE.
           STOP RUN.
