;;; hlasm-mode.el --- A mode for files of the IBM High Level Assembler  -*- lexical-binding: t; -*-

;; Package-Requires: ((emacs "28.1"))

;;; Commentary:

;; Colours by columns, and how HLASM is typed: blanks for tabs, tab stops at columns 10 and 16, a ruler at column 72, no
;; wrapping, comments in column 1.  The server comes with hlasm-ls.el.
;;
;; HLASM Language Reference SC26-4940, "Assembler language coding conventions": a statement stands in columns 1 to 71, a
;; character in column 72 says that it goes on in column 16 of the next line, and what stands behind is not read.  A place
;; is the position of a character of a statement and the number of its line within the statement.

;;; Code:

(defgroup hlasm nil
  "Files of the IBM High Level Assembler."
  :group 'languages)

(defface hlasm-margin '((t :inherit error)) "Text in columns 1 to 15 of a continuation line, which is lost.")
(defface hlasm-mark '((t :inherit font-lock-warning-face)) "A mark in column 72.")
(defface hlasm-unread '((t :inherit shadow)) "What stands behind column 72.")

;;; What operations are

(defconst hlasm--machine-operations
  (split-string "
A AD ADB ADBR ADR ADTR ADTRA AE AEB AEBR AER AFI AG AGF AGFI AGFR AGH AGHI AGHIK AGR AGRK AGSI AH AHHHR AHHLR AHI
AHIK AHY AIH AL ALC ALCG ALCGR ALCR ALFI ALG ALGF ALGFI ALGFR ALGHSIK ALGR ALGRK ALGSI ALHHHR ALHHLR ALHSIK ALR ALRK
ALSI ALSIH ALSIHN ALY AP AR ARK ASI AU AUR AW AWR AXBR AXR AXTR AXTRA AY B BAKR BAL BALR BAS BASR BASSM BC BCR BCT
BCTG BCTGR BCTR BDEPG BE BER BEXTG BH BHR BI BIC BIE BIH BIL BIM BINE BINH BINL BINM BINO BINP BINZ BIO BIP BIZ BL
BLR BM BMR BNE BNER BNH BNHR BNL BNLR BNM BNMR BNO BNOR BNP BNPR BNZ BNZR BO BOR BP BPP BPR BPRP BR BRAS BRASL BRC
BRCL BRCT BRCTG BRCTH BRE BREL BRH BRHL BRL BRLL BRM BRML BRNE BRNEL BRNH BRNHL BRNL BRNLL BRNM BRNML BRNO BRNOL
BRNP BRNPL BRNZ BRNZL BRO BROL BRP BRPL BRU BRUL BRXH BRXHG BRXLE BRXLG BRZ BRZL BSA BSG BSM BXH BXHG BXLE BXLEG BZ
BZR C CAL CALG CALGF CD CDB CDBR CDFBR CDFBRA CDFR CDFTR CDGBR CDGBRA CDGR CDGTR CDGTRA CDLFBR CDLFTR CDLGBR CDLGTR
CDPT CDR CDS CDSG CDSTR CDSY CDTR CDUTR CDZT CE CEB CEBR CEDTR CEFBR CEFBRA CEFR CEGBR CEGBRA CEGR CELFBR CELGBR CER
CEXTR CFC CFDBR CFDBRA CFDR CFDTR CFEBR CFEBRA CFER CFI CFXBR CFXBRA CFXR CFXTR CG CGDBR CGDBRA CGDR CGDTR CGDTRA
CGEBR CGEBRA CGER CGF CGFI CGFR CGFRL CGH CGHI CGHRL CGHSI CGIB CGIBE CGIBH CGIBL CGIBNE CGIBNH CGIBNL CGIJ CGIJE
CGIJH CGIJL CGIJNE CGIJNH CGIJNL CGIT CGITE CGITH CGITL CGITNE CGITNH CGITNL CGR CGRB CGRBE CGRBH CGRBL CGRBNE
CGRBNH CGRBNL CGRJ CGRJE CGRJH CGRJL CGRJNE CGRJNH CGRJNL CGRL CGRT CGRTE CGRTH CGRTL CGRTNE CGRTNH CGRTNL CGXBR
CGXBRA CGXR CGXTR CGXTRA CH CHF CHHR CHHSI CHI CHLR CHRL CHSI CHY CIB CIBE CIBH CIBL CIBNE CIBNH CIBNL CIH CIJ CIJE
CIJH CIJL CIJNE CIJNH CIJNL CIT CITE CITH CITL CITNE CITNH CITNL CKSM CL CLC CLCL CLCLE CLCLU CLFDBR CLFDTR CLFEBR
CLFHSI CLFI CLFIT CLFITE CLFITH CLFITL CLFITNE CLFITNH CLFITNL CLFXBR CLFXTR CLG CLGDBR CLGDTR CLGEBR CLGF CLGFI
CLGFR CLGFRL CLGHRL CLGHSI CLGIB CLGIBE CLGIBH CLGIBL CLGIBNE CLGIBNH CLGIBNL CLGIJ CLGIJE CLGIJH CLGIJL CLGIJNE
CLGIJNH CLGIJNL CLGIT CLGITE CLGITH CLGITL CLGITNE CLGITNH CLGITNL CLGR CLGRB CLGRBE CLGRBH CLGRBL CLGRBNE CLGRBNH
CLGRBNL CLGRJ CLGRJE CLGRJH CLGRJL CLGRJNE CLGRJNH CLGRJNL CLGRL CLGRT CLGRTE CLGRTH CLGRTL CLGRTNE CLGRTNH CLGRTNL
CLGT CLGTE CLGTH CLGTL CLGTNE CLGTNH CLGTNL CLGXBR CLGXTR CLHF CLHHR CLHHSI CLHLR CLHRL CLI CLIB CLIBE CLIBH CLIBL
CLIBNE CLIBNH CLIBNL CLIH CLIJ CLIJE CLIJH CLIJL CLIJNE CLIJNH CLIJNL CLIY CLM CLMH CLMY CLR CLRB CLRBE CLRBH CLRBL
CLRBNE CLRBNH CLRBNL CLRCH CLRIO CLRJ CLRJE CLRJH CLRJL CLRJNE CLRJNH CLRJNL CLRL CLRT CLRTE CLRTH CLRTL CLRTNE
CLRTNH CLRTNL CLST CLT CLTE CLTH CLTL CLTNE CLTNH CLTNL CLY CLZG CMPSC CONCS CP CPDT CPSDR CPXT CPYA CR CRB CRBE
CRBH CRBL CRBNE CRBNH CRBNL CRDTE CRJ CRJE CRJH CRJL CRJNE CRJNH CRJNL CRL CRT CRTE CRTH CRTL CRTNE CRTNH CRTNL CS
CSCH CSDTR CSG CSP CSPG CSST CSXTR CSY CTZG CU12 CU14 CU21 CU24 CU41 CU42 CUDTR CUSE CUTFU CUUTF CUXTR CVB CVBG CVBY
CVD CVDG CVDY CXBR CXFBR CXFBRA CXFR CXFTR CXGBR CXGBRA CXGR CXGTR CXGTRA CXLFBR CXLFTR CXLGBR CXLGTR CXPT CXR CXSTR
CXTR CXUTR CXZT CY CZDT CZXT D DD DDB DDBR DDR DDTR DDTRA DE DEB DEBR DER DFLTCC DIDBR DIEBR DISCS DL DLG DLGR DLR
DP DR DSG DSGF DSGFR DSGR DXBR DXR DXTR DXTRA EAR ECAG ECCTR ECPGA ECTG ED EDMK EEDTR EEXTR EFPC EPAIR EPAR EPCTR
EPSW EREG EREGG ESAIR ESAR ESDTR ESEA ESTA ESXTR ETND EX EXRL FIDBR FIDBRA FIDR FIDTR FIEBR FIEBRA FIER FIXBR FIXBRA
FIXR FIXTR FLOGR HDR HDV HER HIO HSCH IAC IC ICM ICMH ICMY ICY IDTE IEDTR IEXTR IIHF IIHH IIHL IILF IILH IILL IPK
IPM IPTE IRBM ISK ISKE IVSK J JAS JASL JC JCT JCTG JCTH JE JH JL JLC JLE JLH JLL JLM JLNE JLNH JLNL JLNM JLNO JLNOP
JLNP JLNZ JLO JLP JLU JLZ JM JNE JNH JNL JNM JNO JNOP JNP JNZ JO JP JXH JXHG JXLE JXLEG JZ KDB KDBR KDSA KDTR KEB
KEBR KIMD KLMD KM KMA KMAC KMC KMCTR KMF KMO KXBR KXTR L LA LAA LAAG LAAL LAALG LAE LAEY LAM LAMY LAN LANG LAO LAOG
LARL LASP LAT LAX LAXG LAY LB LBEAR LBH LBR LCBB LCCTL LCDBR LCDFR LCDR LCEBR LCER LCGFR LCGR LCR LCTL LCTLG LCXBR
LCXR LD LDE LDEB LDEBR LDER LDETR LDGR LDR LDRV LDXBR LDXBRA LDXR LDXTR LDY LE LEDBR LEDBRA LEDR LEDTR LER LERV
LEXBR LEXBRA LEXR LEY LFAS LFH LFHAT LFI LFPC LG LGAT LGB LGBR LGDR LGF LGFI LGFR LGFRL LGG LGH LGHI LGHR LGHRL LGR
LGRL LGSC LH LHH LHHR LHI LHLR LHR LHRL LHY LLC LLCH LLCHHR LLCHLR LLCLHR LLCR LLGC LLGCR LLGF LLGFAT LLGFI LLGFR
LLGFRL LLGFSG LLGH LLGHI LLGHR LLGHRL LLGT LLGTAT LLGTR LLH LLHFR LLHH LLHHHR LLHHLR LLHLHR LLHR LLHRL LLIHF LLIHH
LLIHL LLILF LLILH LLILL LLXAB LLXAF LLXAG LLXAH LLXAQ LLZRGF LM LMD LMG LMH LMY LNDBR LNDFR LNDR LNEBR LNER LNGFR
LNGR LNR LNXBR LNXR LOC LOCE LOCFH LOCFHE LOCFHH LOCFHL LOCFHM LOCFHNE LOCFHNH LOCFHNL LOCFHNM LOCFHNO LOCFHNP
LOCFHNZ LOCFHO LOCFHP LOCFHR LOCFHRE LOCFHRH LOCFHRL LOCFHRM LOCFHRNE LOCFHRNH LOCFHRNL LOCFHRNM LOCFHRNO LOCFHRNP
LOCFHRNZ LOCFHRO LOCFHRP LOCFHRZ LOCFHZ LOCG LOCGE LOCGH LOCGHI LOCGHIE LOCGHIH LOCGHIL LOCGHIM LOCGHINE LOCGHINH
LOCGHINL LOCGHINM LOCGHINO LOCGHINP LOCGHINZ LOCGHIO LOCGHIP LOCGHIZ LOCGL LOCGM LOCGNE LOCGNH LOCGNL LOCGNM LOCGNO
LOCGNP LOCGNZ LOCGO LOCGP LOCGR LOCGRE LOCGRH LOCGRL LOCGRM LOCGRNE LOCGRNH LOCGRNL LOCGRNM LOCGRNO LOCGRNP LOCGRNZ
LOCGRO LOCGRP LOCGRZ LOCGZ LOCH LOCHHI LOCHHIE LOCHHIH LOCHHIL LOCHHIM LOCHHINE LOCHHINH LOCHHINL LOCHHINM LOCHHINO
LOCHHINP LOCHHINZ LOCHHIO LOCHHIP LOCHHIZ LOCHI LOCHIE LOCHIH LOCHIL LOCHIM LOCHINE LOCHINH LOCHINL LOCHINM LOCHINO
LOCHINP LOCHINZ LOCHIO LOCHIP LOCHIZ LOCL LOCM LOCNE LOCNH LOCNL LOCNM LOCNO LOCNP LOCNZ LOCO LOCP LOCR LOCRE LOCRH
LOCRL LOCRM LOCRNE LOCRNH LOCRNL LOCRNM LOCRNO LOCRNP LOCRNZ LOCRO LOCRP LOCRZ LOCZ LPCTL LPD LPDBR LPDFR LPDG LPDR
LPEBR LPER LPGFR LPGR LPP LPQ LPR LPSW LPSWE LPSWEY LPTEA LPXBR LPXR LR LRA LRAG LRAY LRDR LRER LRL LRV LRVG LRVGR
LRVH LRVR LSCTL LT LTDBR LTDR LTDTR LTEBR LTER LTG LTGF LTGFR LTGR LTR LTXBR LTXR LTXTR LURA LURAG LXAB LXAF LXAG
LXAH LXAQ LXD LXDB LXDBR LXDR LXDTR LXE LXEB LXEBR LXER LXR LY LZDR LZER LZRF LZRG LZXR M MAD MADB MADBR MADR MAE
MAEB MAEBR MAER MAY MAYH MAYHR MAYL MAYLR MAYR MC MD MDB MDBR MDE MDEB MDEBR MDER MDR MDTR MDTRA ME MEE MEEB MEEBR
MEER MER MFY MG MGH MGHI MGRK MH MHI MHY ML MLG MLGR MLR MP MR MS MSC MSCH MSD MSDB MSDBR MSDR MSE MSEB MSEBR MSER
MSFI MSG MSGC MSGF MSGFI MSGFR MSGR MSGRKC MSR MSRKC MSTA MSY MVC MVCDK MVCIN MVCK MVCL MVCLE MVCLU MVCOS MVCP MVCRL
MVCS MVCSK MVGHI MVHHI MVHI MVI MVIY MVN MVO MVPG MVST MVZ MXBR MXD MXDB MXDBR MXDR MXR MXTR MXTRA MY MYH MYHR MYL
MYLR MYR N NC NCGRK NCRK NG NGR NGRK NHHR NHLR NI NIAI NIHF NIHH NIHL NILF NILH NILL NIY NLHR NNGRK NNPA NNRK NOGRK
NOP NOPR NORK NOTGR NOTR NR NRK NTSTG NXGRK NXRK NY O OC OCGRK OCRK OG OGR OGRK OHHR OHLR OI OIHF OIHH OIHL OILF
OILH OILL OIY OLHR OR ORK OY PACK PALB PC PCC PCKMO PFCR PFD PFDRL PFMF PFPO PGIN PGOUT PKA PKU PLO POPCNT PPA PPNO
PR PRNO PT PTF PTFF PTI PTLB QADTR QAXTR QCTRI QPACI QSI RCHP RDD RDP RIO RISBG RISBGN RISBGNZ RISBGZ RISBHG RISBHGZ
RISBLG RISBLGZ RLL RLLG RNSBG RNSBGT ROSBG ROSBGT RP RRB RRBE RRBM RRDTR RRXTR RSCH RXSBG RXSBGT S SAC SACF SAL
SAM24 SAM31 SAM64 SAR SCCTR SCHM SCK SCKC SCKPF SD SDB SDBR SDR SDTR SDTRA SE SEB SEBR SELFHR SELFHRE SELFHRH
SELFHRL SELFHRM SELFHRNE SELFHRNH SELFHRNL SELFHRNM SELFHRNO SELFHRNP SELFHRNZ SELFHRO SELFHRP SELFHRZ SELGR SELGRE
SELGRH SELGRL SELGRM SELGRNE SELGRNH SELGRNL SELGRNM SELGRNO SELGRNP SELGRNZ SELGRO SELGRP SELGRZ SELR SELRE SELRH
SELRL SELRM SELRNE SELRNH SELRNL SELRNM SELRNO SELRNP SELRNZ SELRO SELRP SELRZ SER SFASR SFPC SG SGF SGFR SGH SGR
SGRK SH SHHHR SHHLR SHY SIE SIGA SIGP SIO SIOF SL SLA SLAG SLAK SLB SLBG SLBGR SLBR SLDA SLDL SLDT SLFI SLG SLGF
SLGFI SLGFR SLGR SLGRK SLHHHR SLHHLR SLL SLLG SLLK SLR SLRK SLXT SLY SORTL SP SPCTR SPKA SPM SPT SPX SQD SQDB SQDBR
SQDR SQE SQEB SQEBR SQER SQXBR SQXR SR SRA SRAG SRAK SRDA SRDL SRDT SRK SRL SRLG SRLK SRNM SRNMB SRNMT SRP SRST
SRSTU SRXT SSAIR SSAR SSCH SSK SSKE SSM ST STAM STAMY STAP STBEAR STC STCH STCK STCKC STCKE STCKF STCM STCMH STCMY
STCPS STCRW STCTG STCTL STCY STD STDRV STDY STE STERV STEY STFH STFL STFLE STFPC STG STGRL STGSC STH STHH STHRL STHY
STIDC STIDP STM STMG STMH STMY STNSM STOC STOCE STOCFH STOCFHE STOCFHH STOCFHL STOCFHM STOCFHNE STOCFHNH STOCFHNL
STOCFHNM STOCFHNO STOCFHNP STOCFHNZ STOCFHO STOCFHP STOCFHZ STOCG STOCGE STOCGH STOCGL STOCGM STOCGNE STOCGNH
STOCGNL STOCGNM STOCGNO STOCGNP STOCGNZ STOCGO STOCGP STOCGZ STOCH STOCL STOCM STOCNE STOCNH STOCNL STOCNM STOCNO
STOCNP STOCNZ STOCO STOCP STOCZ STOSM STPQ STPT STPX STRAG STRL STRV STRVG STRVH STSCH STSI STURA STURG STY SU SUR
SVC SW SWR SXBR SXR SXTR SXTRA SY TABORT TAM TAR TB TBDR TBEDR TBEGIN TBEGINC TCDB TCEB TCH TCXB TDCDT TDCET TDCXT
TDGDT TDGET TDGXT TEND THDER THDR TIO TM TMH TMHH TMHL TML TMLH TMLL TMY TP TPEI TPI TPROT TR TRACE TRACG TRAP2
TRAP4 TRE TROO TROT TRT TRTE TRTO TRTR TRTRE TRTT TS TSCH UNPK UNPKA UNPKU UPT VA VAB VAC VACC VACCB VACCC VACCCQ
VACCF VACCG VACCH VACCQ VACQ VAF VAG VAH VAP VAQ VAVG VAVGB VAVGF VAVGG VAVGH VAVGL VAVGLB VAVGLF VAVGLG VAVGLH
VAVGLQ VAVGQ VBLEND VBLENDB VBLENDF VBLENDG VBLENDH VBLENDQ VBPERM VCDG VCDGB VCDLG VCDLGB VCEFB VCELFB VCEQ VCEQB
VCEQBS VCEQF VCEQFS VCEQG VCEQGS VCEQH VCEQHS VCEQQ VCEQQS VCFEB VCFN VCFPL VCFPS VCGD VCGDB VCH VCHB VCHBS VCHF
VCHFS VCHG VCHGS VCHH VCHHS VCHL VCHLB VCHLBS VCHLF VCHLFS VCHLG VCHLGS VCHLH VCHLHS VCHLQ VCHLQS VCHQ VCHQS VCKSM
VCLFEB VCLFNH VCLFNL VCLFP VCLGD VCLGDB VCLZ VCLZB VCLZDP VCLZF VCLZG VCLZH VCLZQ VCNF VCP VCRNF VCSFP VCSPH VCTZ
VCTZB VCTZF VCTZG VCTZH VCTZQ VCVB VCVBG VCVBQ VCVD VCVDG VCVDQ VD VDF VDG VDL VDLF VDLG VDLQ VDP VDQ VEC VECB VECF
VECG VECH VECL VECLB VECLF VECLG VECLH VECLQ VECQ VERIM VERIMB VERIMF VERIMG VERIMH VERLL VERLLB VERLLF VERLLG
VERLLH VERLLV VERLLVB VERLLVF VERLLVG VERLLVH VESL VESLB VESLF VESLG VESLH VESLV VESLVB VESLVF VESLVG VESLVH VESRA
VESRAB VESRAF VESRAG VESRAH VESRAV VESRAVB VESRAVF VESRAVG VESRAVH VESRL VESRLB VESRLF VESRLG VESRLH VESRLV VESRLVB
VESRLVF VESRLVG VESRLVH VEVAL VFA VFADB VFAE VFAEB VFAEBS VFAEF VFAEFS VFAEH VFAEHS VFAEZB VFAEZBS VFAEZF VFAEZFS
VFAEZH VFAEZHS VFASB VFCE VFCEDB VFCEDBS VFCESB VFCESBS VFCH VFCHDB VFCHDBS VFCHE VFCHEDB VFCHEDBS VFCHESB VFCHESBS
VFCHSB VFCHSBS VFD VFDDB VFDSB VFEE VFEEB VFEEBS VFEEF VFEEFS VFEEH VFEEHS VFEEZB VFEEZBS VFEEZF VFEEZFS VFEEZH
VFEEZHS VFENE VFENEB VFENEBS VFENEF VFENEFS VFENEH VFENEHS VFENEZB VFENEZBS VFENEZF VFENEZFS VFENEZH VFENEZHS VFI
VFIDB VFISB VFKEDB VFKEDBS VFKESB VFKESBS VFKHDB VFKHDBS VFKHEDB VFKHEDBS VFKHESB VFKHESBS VFKHSB VFKHSBS VFLCDB
VFLCSB VFLL VFLLS VFLNDB VFLNSB VFLPDB VFLPSB VFLR VFLRD VFM VFMA VFMADB VFMASB VFMAX VFMAXDB VFMAXSB VFMDB VFMIN
VFMINDB VFMINSB VFMS VFMSB VFMSDB VFMSSB VFNMA VFNMADB VFNMASB VFNMS VFNMSDB VFNMSSB VFPSO VFPSODB VFPSOSB VFS VFSDB
VFSQ VFSQDB VFSQSB VFSSB VFTCI VFTCIDB VFTCISB VGBM VGEF VGEG VGEM VGEMB VGEMF VGEMG VGEMH VGEMQ VGFM VGFMA VGFMAB
VGFMAF VGFMAG VGFMAH VGFMB VGFMF VGFMG VGFMH VGM VGMB VGMF VGMG VGMH VISTR VISTRB VISTRBS VISTRF VISTRFS VISTRH
VISTRHS VL VLBB VLBR VLBRF VLBRG VLBRH VLBRQ VLBRREP VLBRREPF VLBRREPG VLBRREPH VLC VLCB VLCF VLCG VLCH VLCQ VLDE
VLDEB VLEB VLEBRF VLEBRG VLEBRH VLED VLEDB VLEF VLEG VLEH VLEIB VLEIF VLEIG VLEIH VLER VLERF VLERG VLERH VLGV VLGVB
VLGVF VLGVG VLGVH VLIP VLL VLLEBRZ VLLEBRZE VLLEBRZF VLLEBRZG VLLEBRZH VLLEZ VLLEZB VLLEZF VLLEZG VLLEZH VLLEZLF VLM
VLP VLPB VLPF VLPG VLPH VLPQ VLR VLREP VLREPB VLREPF VLREPG VLREPH VLRL VLRLR VLVG VLVGB VLVGF VLVGG VLVGH VLVGP
VMAE VMAEB VMAEF VMAEG VMAEH VMAH VMAHB VMAHF VMAHG VMAHH VMAHQ VMAL VMALB VMALE VMALEB VMALEF VMALEG VMALEH VMALF
VMALG VMALH VMALHB VMALHF VMALHG VMALHH VMALHQ VMALHW VMALO VMALOB VMALOF VMALOG VMALOH VMALQ VMAO VMAOB VMAOF VMAOG
VMAOH VME VMEB VMEF VMEG VMEH VMH VMHB VMHF VMHG VMHH VMHQ VML VMLB VMLE VMLEB VMLEF VMLEG VMLEH VMLF VMLG VMLH
VMLHB VMLHF VMLHG VMLHH VMLHQ VMLHW VMLO VMLOB VMLOF VMLOG VMLOH VMLQ VMN VMNB VMNF VMNG VMNH VMNL VMNLB VMNLF VMNLG
VMNLH VMNLQ VMNQ VMO VMOB VMOF VMOG VMOH VMP VMRH VMRHB VMRHF VMRHG VMRHH VMRL VMRLB VMRLF VMRLG VMRLH VMSL VMSLG
VMSP VMX VMXB VMXF VMXG VMXH VMXL VMXLB VMXLF VMXLG VMXLH VMXLQ VMXQ VN VNC VNN VNO VNOT VNX VO VOC VONE VPDI VPERM
VPK VPKF VPKG VPKH VPKLS VPKLSF VPKLSFS VPKLSG VPKLSGS VPKLSH VPKLSHS VPKS VPKSF VPKSFS VPKSG VPKSGS VPKSH VPKSHS
VPKZ VPKZR VPOPCT VPOPCTB VPOPCTF VPOPCTG VPOPCTH VPSOP VR VREP VREPB VREPF VREPG VREPH VREPI VREPIB VREPIF VREPIG
VREPIH VRF VRG VRL VRLF VRLG VRLQ VRP VRQ VS VSB VSBCBI VSBCBIQ VSBI VSBIQ VSCBI VSCBIB VSCBIF VSCBIG VSCBIH VSCBIQ
VSCEF VSCEG VSCHDP VSCHP VSCHSP VSCHXP VSCSHP VSDP VSEG VSEGB VSEGF VSEGH VSEL VSF VSG VSH VSL VSLB VSLD VSLDB VSP
VSQ VSRA VSRAB VSRD VSRL VSRLB VSRP VSRPR VST VSTBR VSTBRF VSTBRG VSTBRH VSTBRQ VSTEB VSTEBRF VSTEBRG VSTEBRH VSTEF
VSTEG VSTEH VSTER VSTERF VSTERG VSTERH VSTL VSTM VSTRC VSTRCB VSTRCBS VSTRCF VSTRCFS VSTRCH VSTRCHS VSTRCZB VSTRCZBS
VSTRCZF VSTRCZFS VSTRCZH VSTRCZHS VSTRL VSTRLR VSTRS VSTRSB VSTRSF VSTRSH VSTRSZB VSTRSZF VSTRSZH VSUM VSUMB VSUMG
VSUMGF VSUMGH VSUMH VSUMQ VSUMQF VSUMQG VTM VTP VTZ VUPH VUPHB VUPHF VUPHG VUPHH VUPKZ VUPKZH VUPKZL VUPL VUPLB
VUPLF VUPLG VUPLH VUPLHB VUPLHF VUPLHG VUPLHH VUPLHW VUPLL VUPLLB VUPLLF VUPLLG VUPLLH VX VZERO WCDGB WCDLGB WCEFB
WCELFB WCFEB WCGDB WCLFEB WCLGDB WFADB WFASB WFAXB WFC WFCDB WFCEDB WFCEDBS WFCESB WFCESBS WFCEXB WFCEXBS WFCHDB
WFCHDBS WFCHEDB WFCHEDBS WFCHESB WFCHESBS WFCHEXB WFCHEXBS WFCHSB WFCHSBS WFCHXB WFCHXBS WFCSB WFCXB WFDDB WFDSB
WFDXB WFIDB WFISB WFIXB WFK WFKDB WFKEDB WFKEDBS WFKESB WFKESBS WFKEXB WFKEXBS WFKHDB WFKHDBS WFKHEDB WFKHEDBS
WFKHESB WFKHESBS WFKHEXB WFKHEXBS WFKHSB WFKHSBS WFKHXB WFKHXBS WFKSB WFKXB WFLCDB WFLCSB WFLCXB WFLLD WFLLS WFLNDB
WFLNSB WFLNXB WFLPDB WFLPSB WFLPXB WFLRD WFLRX WFMADB WFMASB WFMAXB WFMAXDB WFMAXSB WFMAXXB WFMDB WFMINDB WFMINSB
WFMINXB WFMSB WFMSDB WFMSSB WFMSXB WFMXB WFNMADB WFNMASB WFNMAXB WFNMSDB WFNMSSB WFNMSXB WFPSODB WFPSOSB WFPSOXB
WFSDB WFSQDB WFSQSB WFSQXB WFSSB WFSXB WFTCIDB WFTCISB WFTCIXB WLDEB WLEDB WRD X XC XG XGR XGRK XHHR XHLR XI XIHF
XILF XIY XLHR XR XRK XSCH XY ZAP")
  "Machine instructions, as tools/instructions/colours.py wrote them.")

(defconst hlasm--assembler-operations
  (split-string "
CSECT DC DROP DS DSECT END ENTRY EQU EXTRN LTORG ORG START USING WXTRN COPY MNOTE ALIAS AMODE EJECT PRINT
RMODE SPACE TITLE")
  "The assembler's own operations.")

(defconst hlasm--grouped-operations (split-string "AIF AGO SETA SETB SETC")
  "Operations whose operands may have blanks within parentheses.")

(defconst hlasm--conditional-operations
  (append hlasm--grouped-operations (split-string "ACTR ANOP GBLA GBLB GBLC LCLA LCLB LCLC MACRO MEND MEXIT"))
  "The operations of conditional assembly.")

(defconst hlasm--plain-operations
  (let ((table (make-hash-table :test #'equal)))
    (dolist (operation (append hlasm--machine-operations hlasm--assembler-operations) table)
      (puthash operation t table)))
  "The operations whose operands end at the first blank, as keys.")

(defun hlasm--plain-p (operation)
  "Whether the operands of OPERATION end at the first blank.
Those of macro calls and conditional assembly go on in the next line
behind a comma and remarks."
  (or (gethash operation hlasm--plain-operations)
      (string-match-p "&" operation)))

;;; Columns

(defun hlasm--blank-p (char)
  "Whether CHAR is a blank or a tab, or nil."
  (memq char '(nil ?\s ?\t)))

(defun hlasm--marked-p ()
  "Whether this line goes on in the next one."
  (let ((mark (+ (line-beginning-position) 71)))
    (and (< mark (line-end-position)) (not (hlasm--blank-p (char-after mark))))))

(defun hlasm--continues-p ()
  "Whether this line goes on with the statement of the line before."
  (and (not (bobp)) (save-excursion (forward-line -1) (hlasm--marked-p))))

(defun hlasm--go-to-first-line ()
  "Go to the line in which the statement of this line begins."
  (beginning-of-line)
  (while (hlasm--continues-p)
    (forward-line -1)))

(defun hlasm--paint (from to face)
  "Give the text between FROM and TO the FACE."
  (when (< from to)
    (put-text-property from to 'face face)))

(defun hlasm--paint-place (place face)
  "Give the character at PLACE the FACE."
  (hlasm--paint (car place) (1+ (car place)) face))

(defun hlasm--paint-margins (first)
  "Paint what no field of this line has.
That is before column 16, unless it is the FIRST line, and from column 72 on."
  (let* ((start (line-beginning-position))
         (end (line-end-position))
         (mark (min end (+ start 71)))
         (behind (if (hlasm--marked-p) (1+ mark) mark)))
    (unless first
      (hlasm--paint start (min mark (+ start 15)) 'hlasm-margin))
    (hlasm--paint mark behind 'hlasm-mark)
    (hlasm--paint behind end 'hlasm-unread)))

(defun hlasm--places-in-line (number)
  "The places of this line, the last one first.
NUMBER is that of the line in its statement."
  (let ((at (+ (line-beginning-position) (if (zerop number) 0 15)))
        (end (min (line-end-position) (+ (line-beginning-position) 71)))
        (places nil))
    (while (< at end)
      (push (cons at number) places)
      (setq at (1+ at)))
    places))

(defun hlasm--take-statement ()
  "Paint the margins of the statement that begins here, and go behind it.
The value is the list of its places."
  (let ((places nil) (number 0) (more t))
    (while more
      (hlasm--paint-margins (zerop number))
      (setq places (append (hlasm--places-in-line number) places)
            number (1+ number)
            more (hlasm--marked-p))
      (forward-line 1)
      (when (eobp) (setq more nil)))
    (nreverse places)))

;;; Fields

(defun hlasm--char (places)
  "The character at the first of PLACES, or nil."
  (and places (char-after (caar places))))

(defun hlasm--word (places)
  "The characters of PLACES up to a blank."
  (let ((chars nil))
    (while (not (hlasm--blank-p (hlasm--char places)))
      (push (hlasm--char places) chars)
      (setq places (cdr places)))
    (concat (nreverse chars))))

(defun hlasm--take-word (places face)
  "Paint the characters of PLACES up to a blank with FACE.
The value is what is left behind the blanks after them."
  (while (not (hlasm--blank-p (hlasm--char places)))
    (hlasm--paint-place (car places) face)
    (setq places (cdr places)))
  (while (and places (hlasm--blank-p (hlasm--char places)))
    (setq places (cdr places)))
  places)

(defun hlasm--matches-p (regexp char)
  "Whether CHAR is there and matches REGEXP."
  (and char (string-match-p regexp (string char))))

(defun hlasm--attribute-p (before next)
  "Whether an apostrophe outside quotes is an attribute's.
BEFORE are the characters before it, the nearest first, and NEXT is the
one behind it."
  (and (hlasm--matches-p "[A-Za-z$#@_&=]" next)
       (hlasm--matches-p "[DIKLNOSTdiklnost]" (car before))
       (not (hlasm--matches-p "[A-Za-z0-9$#@_&]" (cadr before)))))

(defun hlasm--paint-operands (places free grouped)
  "Paint the operands and the remarks of PLACES.
If FREE, a comma and remarks may end a line of operands.  If GROUPED,
blanks within parentheses belong to them."
  (let ((before nil) (quoted nil) (depth 0) (remarks nil))
    (while places
      (let ((char (hlasm--char places)) (line (cdar places)))
        (cond
         ((memq remarks (list t line))
          (hlasm--paint-place (car places) 'font-lock-comment-face))
         ((and (hlasm--blank-p char) (not quoted) (not (and grouped (> depth 0))))
          (setq remarks (if (and free (eq (car before) ?,)) line t)))
         ((and (eq char ?') (not quoted) (hlasm--attribute-p before (hlasm--char (cdr places))))
          (push char before))
         (t
          (when (or quoted (eq char ?'))
            (hlasm--paint-place (car places) 'font-lock-string-face))
          (cond ((eq char ?') (setq quoted (not quoted)))
                (quoted nil)
                ((eq char ?\() (setq depth (1+ depth)))
                ((eq char ?\)) (setq depth (max 0 (1- depth)))))
          (push char before))))
      (setq places (cdr places)))))

(defconst hlasm--no-variables '(font-lock-comment-face hlasm-margin hlasm-mark hlasm-unread)
  "Faces of text that has no variable symbols.")

(defun hlasm--paint-variables (from to)
  "Paint the variable symbols between FROM and TO."
  (save-excursion
    (goto-char from)
    (while (re-search-forward "&[A-Za-z$#@_][A-Za-z0-9$#@_]*" to t)
      (unless (memq (get-text-property (match-beginning 0) 'face) hlasm--no-variables)
        (hlasm--paint (match-beginning 0) (min (match-end 0) (+ (line-beginning-position) 71)) 'font-lock-variable-name-face)))))

(defun hlasm--paint-fields (places)
  "Paint the name, the operation, the operands and the remarks of PLACES."
  (let* ((behind (hlasm--take-word places 'font-lock-function-name-face))
         (operation (upcase (hlasm--word behind)))
         (plain (hlasm--plain-p operation))
         (face (cond (plain 'font-lock-keyword-face)
                     ((member operation hlasm--conditional-operations) 'font-lock-preprocessor-face)
                     (t 'font-lock-builtin-face))))
    (hlasm--paint-operands (hlasm--take-word behind face) (not plain) (member operation hlasm--grouped-operations))))

(defun hlasm--paint-statement ()
  "Paint the statement that begins in this line, and go to the line behind it."
  (let* ((start (point))
         (comment (looking-at "\\.?\\*"))
         (places (hlasm--take-statement)))
    (if comment
        (dolist (place places)
          (hlasm--paint-place place 'font-lock-comment-face))
      (hlasm--paint-fields places)
      (hlasm--paint-variables start (point)))))

(defun hlasm--paint-region (limit)
  "Paint all statements up to LIMIT, for font-lock, which finds nothing else."
  (hlasm--go-to-first-line)
  (while (and (< (point) limit) (not (eobp)))
    (hlasm--paint-statement))
  nil)

(defvar hlasm--keywords '((hlasm--paint-region))
  "What font-lock does: it calls one function.")

(defvar font-lock-beg)
(defvar font-lock-end)

(defun hlasm--extend-region ()
  "Let the region that font-lock paints begin and end with a statement.
The value says whether that changed it."
  (let ((before (cons font-lock-beg font-lock-end)))
    (save-excursion
      (goto-char font-lock-beg)
      (hlasm--go-to-first-line)
      (setq font-lock-beg (point))
      (goto-char font-lock-end)
      (unless (bolp) (forward-line 1))
      (while (and (not (eobp)) (hlasm--continues-p))
        (forward-line 1))
      (setq font-lock-end (point)))
    (not (equal before (cons font-lock-beg font-lock-end)))))

;;; The mode

;;;###autoload
(define-derived-mode hlasm-mode prog-mode "HLASM"
  "A mode for files of the IBM High Level Assembler."
  (setq-local comment-start "*")
  (setq-local comment-start-skip "^\\.?\\*+[ \t]*")
  (setq-local comment-end "")
  (setq-local comment-padding nil)
  (setq-local comment-style 'plain)
  (setq-local comment-column 0)
  (setq-local indent-tabs-mode nil)
  (setq-local truncate-lines t)
  ;; Column 72 continues a line, and Emacs counts columns from 0.
  (setq-local fill-column 71)
  (setq-local display-fill-column-indicator-column 71)
  (setq-local tab-stop-list '(9 15))
  (setq-local indent-line-function #'tab-to-tab-stop)
  (setq-local font-lock-defaults '(hlasm--keywords t))
  (setq-local font-lock-extend-region-functions '(hlasm--extend-region))
  ;; A mark that is typed or deleted changes the lines behind it.
  (setq-local jit-lock-contextually t)
  (auto-fill-mode -1)
  (display-fill-column-indicator-mode 1))

;;;###autoload
(add-to-list 'auto-mode-alist '("\\.\\(?:hlasm\\|asm\\|mac\\|cpy\\)\\'" . hlasm-mode))

(provide 'hlasm-mode)

;;; hlasm-mode.el ends here
