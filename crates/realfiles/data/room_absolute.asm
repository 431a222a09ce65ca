; A print-switch board's firmware in small, for a PIC16F1459: words in both kinds of memory, with gaps.
        list    p=16f1459
        include <p16f1459.inc>

        __config _CONFIG1, _FOSC_INTOSC & _WDTE_OFF & _CP_OFF
        __config _CONFIG2, _LVP_OFF
        __idlocs 0x2149

        org     0x0000
        goto    main

        org     0x0005
main    banksel OSCCON
        movlw   0x70
        movwf   OSCCON
        banksel TRISC
        clrf    TRISC
again   banksel PORTB
        movf    PORTB, w
        banksel LATC
        movwf   LATC
        goto    again

        org     0x0100
        retlw   'a'
        retlw   'b'
        end
