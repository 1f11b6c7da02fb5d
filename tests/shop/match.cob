       IDENTIFICATION DIVISION.
       PROGRAM-ID. MATCH.
      * Posts the day's transactions to the accounts of the old master
      * file, and writes the new one. Both files rise by their keys.
      *
      * By intent (columns 73 to 80 have the kind):
      *   CLASS  an amount that is posted isn't tested
      *   SIZE   BALANCE has five digits, and one posting may fill it
      *   TRUN   the line of an account that is overdrawn has three
      *          digits for its balance
      *   ZERO   a fee's parts: M-PARTS of an account with fees may be 0
      * False by intent (NOT behind the kind):
      *   ZERO   MEAN: HAS-POSTED is 'Y' only where POSTED is 1 or more
       ENVIRONMENT DIVISION.
       INPUT-OUTPUT SECTION.
       FILE-CONTROL.
           SELECT OLD-MASTER ASSIGN TO OLDMAST.
           SELECT TRANSACTIONS ASSIGN TO TRANS.
           SELECT NEW-MASTER ASSIGN TO NEWMAST.
       DATA DIVISION.
       FILE SECTION.
       FD OLD-MASTER.
       01 MASTER-REC.
          05 M-KEY PIC X(5).
          05 M-BALANCE PIC S9(5)V99 COMP-3.
          05 M-PARTS PIC 9(2).
       FD TRANSACTIONS.
       01 TRANS-REC.
          05 T-KEY PIC X(5).
          05 T-KIND PIC X.
             88 IS-POSTING VALUE 'P'.
             88 IS-FEE VALUE 'F'.
          05 T-AMOUNT PIC S9(5)V99.
       FD NEW-MASTER.
       01 NEW-REC.
          05 N-KEY PIC X(5).
          05 N-BALANCE PIC S9(5)V99 COMP-3.
          05 N-PARTS PIC 9(2).
       WORKING-STORAGE SECTION.
       01 SWITCHES.
          05 HAS-POSTED PIC X VALUE 'N'.
       01 AMOUNTS.
          05 BALANCE PIC S9(5)V99 VALUE ZERO.
          05 POSTED PIC 9(4) VALUE ZERO.
          05 MEAN PIC S9(7)V99 VALUE ZERO.
          05 FEE-PART PIC S9(5)V99 VALUE ZERO.
          05 OVERDRAWN PIC 9(3)V99 VALUE ZERO.
          05 UNMATCHED PIC 9(5) VALUE ZERO.
       PROCEDURE DIVISION.
       MAIN-LINE.
           OPEN INPUT OLD-MASTER TRANSACTIONS OUTPUT NEW-MASTER.
           PERFORM READ-MASTER.
           PERFORM READ-TRANSACTION.
           PERFORM DO-MASTER UNTIL M-KEY = HIGH-VALUES.
           PERFORM DO-UNMATCHED UNTIL T-KEY = HIGH-VALUES.
           DISPLAY 'UNMATCHED ' UNMATCHED.
           CLOSE OLD-MASTER TRANSACTIONS NEW-MASTER.
           STOP RUN.
       READ-MASTER.
           READ OLD-MASTER AT END MOVE HIGH-VALUES TO M-KEY END-READ.
       READ-TRANSACTION.
           READ TRANSACTIONS AT END MOVE HIGH-VALUES TO T-KEY END-READ.
       DO-MASTER.
           PERFORM DO-UNMATCHED UNTIL T-KEY NOT < M-KEY.
           IF M-BALANCE NOT NUMERIC OR M-PARTS NOT NUMERIC
               DISPLAY 'BAD MASTER ' M-KEY
           ELSE
               MOVE M-BALANCE TO BALANCE
               MOVE ZERO TO POSTED
               MOVE 'N' TO HAS-POSTED
               PERFORM DO-TRANSACTION UNTIL T-KEY NOT = M-KEY
               IF HAS-POSTED = 'Y'
                   DIVIDE BALANCE BY POSTED GIVING MEAN                 ZERO NOT
                   DISPLAY M-KEY ' MEAN ' MEAN
               END-IF
               IF BALANCE < 0
                   MOVE BALANCE TO OVERDRAWN                            TRUN
                   DISPLAY M-KEY ' OVERDRAWN ' OVERDRAWN
               END-IF
               MOVE M-KEY TO N-KEY
               MOVE BALANCE TO N-BALANCE
               MOVE M-PARTS TO N-PARTS
               WRITE NEW-REC
           END-IF.
           PERFORM READ-MASTER.
       DO-TRANSACTION.
           EVALUATE TRUE
               WHEN IS-POSTING
                   ADD T-AMOUNT TO BALANCE                              CLASSIZE
                   ADD 1 TO POSTED
                       ON SIZE ERROR DISPLAY 'MANY POSTINGS ' T-KEY
                   END-ADD
                   MOVE 'Y' TO HAS-POSTED
               WHEN IS-FEE AND T-AMOUNT NUMERIC
                   DIVIDE T-AMOUNT BY M-PARTS GIVING FEE-PART           ZERO
                   SUBTRACT FEE-PART FROM BALANCE
                       ON SIZE ERROR DISPLAY 'NO FEE ' T-KEY
                   END-SUBTRACT
               WHEN OTHER
                   DISPLAY 'BAD TRANSACTION ' T-KEY
           END-EVALUATE.
           PERFORM READ-TRANSACTION.
       DO-UNMATCHED.
           ADD 1 TO UNMATCHED
               ON SIZE ERROR DISPLAY 'TOO MANY UNMATCHED'
           END-ADD.
           PERFORM READ-TRANSACTION.
