       IDENTIFICATION DIVISION.
       PROGRAM-ID. G.
       ENVIRONMENT DIVISION.
       INPUT-OUTPUT SECTION.
       FILE-CONTROL.
           SELECT F ASSIGN TO INP.
       DATA DIVISION.
       FILE SECTION.
       FD F.
       01 REC PIC X(80).
       WORKING-STORAGE SECTION.
       77 E PIC X VALUE 'N'.
       PROCEDURE DIVISION.
           OPEN INPUT F.
           PERFORM UNTIL E = 'Y'
               READ F AT END MOVE 'Y' TO E
                   NOT AT END DISPLAY REC
               END-READ
           END-PERFORM.
           CLOSE F.
           STOP RUN.
