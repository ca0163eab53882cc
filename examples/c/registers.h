/* The registers of an SJA1000 in PeliCAN mode (data sheet, 6.4), as the two drivers of this folder name them. */
#ifndef REGISTERS_H
#define REGISTERS_H

enum sja_register {
    MOD = 0, CMR = 1, SR = 2, IR = 3, IER = 4, BTR0 = 6, BTR1 = 7, OCR = 8, ALC = 11, ECC = 12, EWLR = 13,
    RXERR = 14, TXERR = 15, BUFFER = 16, ACR = 16, AMR = 20, RMC = 29, CDR = 31
};

enum mod_bit { MOD_RM = 0x01, MOD_LOM = 0x02, MOD_STM = 0x04, MOD_AFM = 0x08 };
enum cmr_bit { CMR_TR = 0x01, CMR_AT = 0x02, CMR_RRB = 0x04, CMR_CDO = 0x08, CMR_SRR = 0x10 };
enum sr_bit { SR_RBS = 0x01, SR_DOS = 0x02, SR_TBS = 0x04, SR_TCS = 0x08, SR_ES = 0x40, SR_BS = 0x80 };
enum ir_bit { IR_RI = 0x01, IR_TI = 0x02, IR_EI = 0x04, IR_DOI = 0x08, IR_EPI = 0x20, IR_ALI = 0x40, IR_BEI = 0x80 };
enum info_bit { INFO_EXTENDED = 0x80, INFO_REMOTE = 0x40, INFO_LENGTH = 0x0f };

#endif
