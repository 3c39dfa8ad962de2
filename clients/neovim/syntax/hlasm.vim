" The columns and fields of HLASM, for Neovim and Vim. HLASM Language Reference SC26-4940, "Assembler language coding
" conventions": a statement stands in columns 1 to 71, a character in column 72 says that it goes on in column 16 of the
" next line, and what stands behind column 72 is not read. Columns count characters.
if exists('b:current_syntax')
  finish
endif
syntax case ignore

" How far above the screen reading begins, so that a statement that is continued is read from its first line.
syntax sync minlines=100

" A mark in column 72, what stands behind it, and the columns of the next line up to 15, which have to be blank.
syntax region hlasmContinued contained extend matchgroup=hlasmMark start=/\%>71c\%(^.\{71}\)\@300<=\S/ matchgroup=NONE end=/^\%([ \t]\{15}\|[ \t]\{,14}$\)/ matchgroup=hlasmMargin end=/^\%([ \t]\{15}\|[ \t]\{,14}$\)\@!.\{1,15}/ contains=hlasmBehindMark
syntax match hlasmUnread /\%>71c\%(^.\{71}\)\@300<=[ \t].\+$/
syntax match hlasmBehindMark contained /.\+$/

" A statement, and a comment.
syntax region hlasmStatement keepend start=/^/ end=/\%>71c\%(^.\{71}\)\@300<=[ \t]\@=/ end=/$/ contains=hlasmName,hlasmNoName,hlasmContinued
syntax region hlasmComment start=/^\.\=\*/ end=/\%>71c\%(^.\{71}\)\@300<=[ \t]\@=/ end=/$/ contains=hlasmContinued,@Spell

" Name and operation. The operation decides how operands go on: those of machine instructions and of the assembler's own
" operations up to the first blank; those of macro calls and conditional assembly may have remarks behind each comma; and
" some of the latter may have blanks within parentheses. The machine instructions are those of tools/instructions/colours.py.
syntax match hlasmName contained /^[^ \t*]\S*/ contains=hlasmVariable skipwhite nextgroup=@hlasmAnyOperation
syntax match hlasmNoName contained /^[ \t]\+/ nextgroup=@hlasmAnyOperation
syntax cluster hlasmAnyOperation contains=hlasmMacro,hlasmConditional,hlasmCondition,hlasmMachine,hlasmOrdinary,hlasmGenerated
syntax match hlasmMacro contained /\%<72v\S\+/ nextgroup=hlasmFreeOperands
syntax match hlasmGenerated contained /\%<72v[^ \t&]*&\S*/ contains=hlasmVariable nextgroup=hlasmOperands
syntax match hlasmMachine contained nextgroup=hlasmOperands /\%<72v\%(
      \\%(A\%(D\%(BR\=\|R\|TRA\=\)\=\|E\%(BR\=\|R\)\=\|FI\|G\%(F[IR]\=\|H\%(IK\=\)\=\|RK\=\|SI\)\=\|H\%(H\%(HR\|LR\)\|IK\=\
      \|Y\)\=\|IH\|L\%(C\%(GR\=\|R\)\=\|FI\|G\%(F[IR]\=\|HSIK\|RK\=\|SI\)\=\|H\%(H\%(HR\|LR\)\|SIK\)\|RK\=\|SI\%(HN\=\)\=\|
      \Y\)\=\|P\|RK\=\|SI\|UR\=\|WR\=\|X\%(BR\|R\|TRA\=\)\|Y\)\=\|B\%(A\%(KR\|LR\=\|S\%(R\|SM\)\=\)\|C\%(R\|T\%(GR\=\|R\)\=
      \\)\=\|DEPG\|E\%(R\|XTG\)\=\|HR\=\|I\%(C\|E\|H\|L\|M\|N[EHLMOPZ]\|O\|P\|Z\)\=\|LR\=\|MR\=\|N\%(ER\=\|HR\=\|LR\=\|MR\=
      \\|OR\=\|PR\=\|ZR\=\)\|OR\=\|P\%(P\|RP\=\)\=\|R\%(ASL\=\|C\%(L\|T[GH]\=\)\=\|EL\=\|HL\=\|LL\=\|ML\=\|N\%(EL\=\|HL\=\|
      \LL\=\|ML\=\|OL\=\|PL\=\|ZL\=\)\|OL\=\|PL\=\|UL\=\|X\%(HG\=\|L[EG]\)\|ZL\=\)\=\|S[AGM]\|X\%(HG\=\|LEG\=\)\|ZR\=\)\=\|
      \C\%(AL\%(GF\=\)\=\|D\%(BR\=\|F\%(BRA\=\|R\|TR\)\|G\%(BRA\=\|R\|TRA\=\)\|L\%(F\%(BR\|TR\)\|G\%(BR\|TR\)\)\|PT\|R\|S\%
      \(G\|TR\|Y\)\=\|TR\|UTR\|ZT\)\=\|E\%(BR\=\|DTR\|F\%(BRA\=\|R\)\|G\%(BRA\=\|R\)\|L\%(FBR\|GBR\)\|R\|XTR\)\=\|F\%(C\|D\
      \%(BRA\=\|R\|TR\)\|E\%(BRA\=\|R\)\|I\|X\%(BRA\=\|R\|TR\)\)\|G\%(D\%(BRA\=\|R\|TRA\=\)\|E\%(BRA\=\|R\)\|F\%(I\|RL\=\)\
      \=\|H\%(I\|RL\|SI\)\=\|I\%(B\%(E\|H\|L\|N[EHL]\)\=\|J\%(E\|H\|L\|N[EHL]\)\=\|T\%(E\|H\|L\|N[EHL]\)\=\)\|R\%(B\%(E\|H\
      \|L\|N[EHL]\)\=\|J\%(E\|H\|L\|N[EHL]\)\=\|L\|T\%(E\|H\|L\|N[EHL]\)\=\)\=\|X\%(BRA\=\|R\|TRA\=\)\)\=\|H\%(F\|H\%(R\|SI
      \\)\|I\|LR\|RL\|SI\|Y\)\=\|I\%(B\%(E\|H\|L\|N[EHL]\)\=\|H\|J\%(E\|H\|L\|N[EHL]\)\=\|T\%(E\|H\|L\|N[EHL]\)\=\)\|KSM\|L
      \\%(C\%(L[EU]\=\)\=\|F\%(D\%(BR\|TR\)\|EBR\|HSI\|I\%(T\%(E\|H\|L\|N[EHL]\)\=\)\=\|X\%(BR\|TR\)\)\|G\%(D\%(BR\|TR\)\|E
      \BR\|F\%(I\|RL\=\)\=\|H\%(RL\|SI\)\|I\%(B\%(E\|H\|L\|N[EHL]\)\=\|J\%(E\|H\|L\|N[EHL]\)\=\|T\%(E\|H\|L\|N[EHL]\)\=\)\|
      \R\%(B\%(E\|H\|L\|N[EHL]\)\=\|J\%(E\|H\|L\|N[EHL]\)\=\|L\|T\%(E\|H\|L\|N[EHL]\)\=\)\=\|T\%(E\|H\|L\|N[EHL]\)\=\|X\%(B
      \R\|TR\)\)\=\|H\%(F\|H\%(R\|SI\)\|LR\|RL\)\|I\%(B\%(E\|H\|L\|N[EHL]\)\=\|H\|J\%(E\|H\|L\|N[EHL]\)\=\|Y\)\=\|M[HY]\=\|
      \R\%(B\%(E\|H\|L\|N[EHL]\)\=\|CH\|IO\|J\%(E\|H\|L\|N[EHL]\)\=\|L\|T\%(E\|H\|L\|N[EHL]\)\=\)\=\|ST\|T\%(E\|H\|L\|N[EHL
      \]\)\=\|Y\|ZG\)\=\|MPSC\|ONCS\|P\%(DT\|SDR\|XT\|YA\)\=\|R\%(B\%(E\|H\|L\|N[EHL]\)\=\|DTE\|J\%(E\|H\|L\|N[EHL]\)\=\|L\
      \|T\%(E\|H\|L\|N[EHL]\)\=\)\=\|S\%(CH\|DTR\|G\|PG\=\|ST\|XTR\|Y\)\=\|TZG\|U\%(1[24]\|2[14]\|4[12]\|DTR\|SE\|TFU\|UTF\
      \|XTR\)\|V\%(B[GY]\=\|D[GY]\=\)\|X\%(BR\|F\%(BRA\=\|R\|TR\)\|G\%(BRA\=\|R\|TRA\=\)\|L\%(F\%(BR\|TR\)\|G\%(BR\|TR\)\)\
      \|PT\|R\|STR\|TR\|UTR\|ZT\)\|Y\|Z\%(DT\|XT\)\)\=\|D\%(D\%(BR\=\|R\|TRA\=\)\=\|E\%(BR\=\|R\)\=\|FLTCC\|I\%(DBR\|EBR\|S
      \CS\)\|L\%(GR\=\|R\)\=\|P\|R\|SG\%(FR\=\|R\)\=\|X\%(BR\|R\|TRA\=\)\)\=\|E\%(AR\|C\%(AG\|CTR\|PGA\|TG\)\|D\%(MK\)\=\|E
      \\%(DTR\|XTR\)\|FPC\|P\%(A\%(IR\|R\)\|CTR\|SW\)\|REGG\=\|S\%(A\%(IR\|R\)\|DTR\|EA\|TA\|XTR\)\|TND\|X\%(RL\)\=\)\|F\%(
      \I\%(D\%(BRA\=\|R\|TR\)\|E\%(BRA\=\|R\)\|X\%(BRA\=\|R\|TR\)\)\|LOGR\)\|H\%(D[RV]\|ER\|IO\|SCH\)\|I\%(AC\|C\%(M[HY]\=\
      \|Y\)\=\|DTE\|E\%(DTR\|XTR\)\|I\%(H[FHL]\|L[FHL]\)\|P\%(K\|M\|TE\)\|RBM\|SKE\=\|VSK\)\|J\%(ASL\=\|C\%(T[GH]\=\)\=\|E\
      \|H\|L\%(C\|E\|H\|L\|M\|N\%(E\|H\|L\|M\|OP\=\|P\|Z\)\|O\|P\|U\|Z\)\=\|M\|N\%(E\|H\|L\|M\|OP\=\|P\|Z\)\|O\|P\|X\%(HG\=
      \\|LEG\=\)\|Z\)\=\|K\%(D\%(BR\=\|SA\|TR\)\|EBR\=\|IMD\|LMD\|M\%(AC\=\|C\%(TR\)\=\|F\|O\)\=\|X\%(BR\|TR\)\)\|L\%(A\%(A
      \\%(G\|LG\=\)\=\|EY\=\|MY\=\|NG\=\|OG\=\|RL\|SP\|T\|XG\=\|Y\)\=\|B\%(EAR\|H\|R\)\=\|C\%(BB\|CTL\|D\%(BR\|FR\|R\)\|E\%
      \(BR\|R\)\|G\%(FR\|R\)\|R\|TLG\=\|X\%(BR\|R\)\)\|D\%(E\%(BR\=\|R\|TR\)\=\|GR\|RV\=\|X\%(BRA\=\|R\|TR\)\|Y\)\=\|E\%(D\
      \%(BRA\=\|R\|TR\)\|RV\=\|X\%(BRA\=\|R\)\|Y\)\=\|F\%(AS\|H\%(AT\)\=\|I\|PC\)\|G\%(AT\|BR\=\|DR\|F\%(I\|RL\=\)\=\|G\|H\
      \%(I\|RL\=\)\=\|RL\=\|SC\)\=\|H\%(HR\=\|I\|LR\|RL\=\|Y\)\=\|L\%(C\%(H\%(HR\|LR\)\=\|LHR\|R\)\=\|G\%(CR\=\|F\%(AT\|I\|
      \RL\=\|SG\)\=\|H\%(I\|RL\=\)\=\|T\%(AT\|R\)\=\)\|H\%(FR\|H\%(HR\|LR\)\=\|LHR\|RL\=\)\=\|I\%(H[FHL]\|L[FHL]\)\|XA[BFGH
      \Q]\|ZRGF\)\|M[DGHY]\=\|N\%(D\%(BR\|FR\|R\)\|E\%(BR\|R\)\|G\%(FR\|R\)\|R\|X\%(BR\|R\)\)\|OC\%(E\|FH\%(E\|H\|L\|M\|N[E
      \HLMOPZ]\|O\|P\|R\%(E\|H\|L\|M\|N[EHLMOPZ]\|O\|P\|Z\)\=\|Z\)\=\|G\%(E\|H\%(I\%(E\|H\|L\|M\|N[EHLMOPZ]\|O\|P\|Z\)\=\)\
      \=\|L\|M\|N[EHLMOPZ]\|O\|P\|R\%(E\|H\|L\|M\|N[EHLMOPZ]\|O\|P\|Z\)\=\|Z\)\=\|H\%(HI\%(E\|H\|L\|M\|N[EHLMOPZ]\|O\|P\|Z\
      \)\=\|I\%(E\|H\|L\|M\|N[EHLMOPZ]\|O\|P\|Z\)\=\)\=\|L\|M\|N[EHLMOPZ]\|O\|P\|R\%(E\|H\|L\|M\|N[EHLMOPZ]\|O\|P\|Z\)\=\|Z
      \\)\=\|P\%(CTL\|D\%(BR\|FR\|G\|R\)\=\|E\%(BR\|R\)\|G\%(FR\|R\)\|P\|Q\|R\|SW\%(EY\=\)\=\|TEA\|X\%(BR\|R\)\)\|R\%(A[GY]
      \\=\|DR\|ER\|L\|V\%(GR\=\|H\|R\)\=\)\=\|SCTL\|T\%(D\%(BR\|R\|TR\)\|E\%(BR\|R\)\|G\%(FR\=\|R\)\=\|R\|X\%(BR\|R\|TR\)\)
      \\=\|URAG\=\|X\%(A[BFGHQ]\|D\%(BR\=\|R\|TR\)\=\|E\%(BR\=\|R\)\=\|R\)\|Y\|Z\%(DR\|ER\|R[FG]\|XR\)\)\=\|M\%(A\%(D\%(BR\
      \=\|R\)\=\|E\%(BR\=\|R\)\=\|Y\%(HR\=\|LR\=\|R\)\=\)\|C\|D\%(BR\=\|E\%(BR\=\|R\)\=\|R\|TRA\=\)\=\|E\%(E\%(BR\=\|R\)\=\
      \|R\)\=\|FY\|G\%(HI\=\|RK\)\=\|H[IY]\=\|L\%(GR\=\|R\)\=\|P\|R\|S\%(CH\=\|D\%(BR\=\|R\)\=\|E\%(BR\=\|R\)\=\|FI\|G\%(C\
      \|F[IR]\=\|R\%(KC\)\=\)\=\|R\%(KC\)\=\|TA\|Y\)\=\|V\%(C\%(DK\|IN\|K\|L[EU]\=\|OS\|P\|RL\|SK\=\)\=\|GHI\|H\%(HI\|I\)\|
      \IY\=\|N\|O\|PG\|ST\|Z\)\|X\%(BR\|D\%(BR\=\|R\)\=\|R\|TRA\=\)\|Y\%(HR\=\|LR\=\|R\)\=\)\=\|N\%(C\%(GRK\|RK\)\=\|G\%(RK
      \\=\)\=\|H\%(HR\|LR\)\|I\%(AI\|H[FHL]\|L[FHL]\|Y\)\=\|LHR\|N\%(GRK\|PA\|RK\)\|O\%(GRK\|PR\=\|RK\|T\%(GR\|R\)\)\|RK\=\
      \|TSTG\|X\%(GRK\|RK\)\|Y\)\=\|O\%(C\%(GRK\|RK\)\=\|G\%(RK\=\)\=\|H\%(HR\|LR\)\|I\%(H[FHL]\|L[FHL]\|Y\)\=\|LHR\|RK\=\|
      \Y\)\=\|P\%(A\%(CK\|LB\)\|C\%(C\|KMO\)\=\|F\%(CR\|D\%(RL\)\=\|MF\|PO\)\|G\%(IN\|OUT\)\|K[AU]\|LO\|OPCNT\|P\%(A\|NO\)\
      \|R\%(NO\)\=\|T\%(FF\=\|I\|LB\)\=\)\|Q\%(A\%(DTR\|XTR\)\|CTRI\|PACI\|SI\)\|R\%(CHP\|D[DP]\|I\%(O\|SB\%(G\%(NZ\=\|Z\)\
      \=\|HGZ\=\|LGZ\=\)\)\|LLG\=\|NSBGT\=\|OSBGT\=\|P\|R\%(B[EM]\=\|DTR\|XTR\)\|SCH\|XSBGT\=\)\|S\%(A\%(CF\=\|L\|M\%(24\|3
      \1\|64\)\|R\)\|C\%(CTR\|HM\|K\%(C\|PF\)\=\)\|D\%(BR\=\|R\|TRA\=\)\=\|E\%(BR\=\|L\%(FHR\%(E\|H\|L\|M\|N[EHLMOPZ]\|O\|P
      \\|Z\)\=\|GR\%(E\|H\|L\|M\|N[EHLMOPZ]\|O\|P\|Z\)\=\|R\%(E\|H\|L\|M\|N[EHLMOPZ]\|O\|P\|Z\)\=\)\|R\)\=\|F\%(ASR\|PC\)\|
      \G\%(FR\=\|H\|RK\=\)\=\|H\%(H\%(HR\|LR\)\|Y\)\=\|I\%(E\|G[AP]\|OF\=\)\|L\%(A[GK]\=\|B\%(GR\=\|R\)\=\|D[ALT]\|FI\|G\%(
      \F[IR]\=\|RK\=\)\=\|HH\%(HR\|LR\)\|L[GK]\=\|RK\=\|XT\|Y\)\=\|ORTL\|P\%(CTR\|KA\|M\|T\|X\)\=\|Q\%(D\%(BR\=\|R\)\=\|E\%
      \(BR\=\|R\)\=\|X\%(BR\|R\)\)\|R\%(A[GK]\=\|D[ALT]\|K\|L[GK]\=\|NM[BT]\=\|P\|STU\=\|XT\)\=\|S\%(A\%(IR\|R\)\|CH\|KE\=\
      \|M\)\|T\%(A\%(MY\=\|P\)\|BEAR\|C\%(H\|K[CEF]\=\|M[HY]\=\|PS\|RW\|T[GL]\|Y\)\=\|D\%(RV\|Y\)\=\|E\%(RV\|Y\)\=\|F\%(H\|
      \LE\=\|PC\)\|G\%(RL\|SC\)\=\|H\%(H\|RL\|Y\)\=\|ID[CP]\|M[GHY]\=\|NSM\|O\%(C\%(E\|FH\%(E\|H\|L\|M\|N[EHLMOPZ]\|O\|P\|Z
      \\)\=\|G\%(E\|H\|L\|M\|N[EHLMOPZ]\|O\|P\|Z\)\=\|H\|L\|M\|N[EHLMOPZ]\|O\|P\|Z\)\=\|SM\)\|P[QTX]\|R\%(AG\|L\|V[GH]\=\)\
      \|S\%(CH\|I\)\|UR[AG]\|Y\)\=\|UR\=\|VC\|WR\=\|X\%(BR\|R\|TRA\=\)\|Y\)\=\|T\%(A\%(BORT\|M\|R\)\|B\%(DR\|E\%(DR\|GINC\=
      \\)\)\=\|C\%(DB\|EB\|H\|XB\)\|D\%(C\%(DT\|ET\|XT\)\|G\%(DT\|ET\|XT\)\)\|END\|HD\%(ER\|R\)\|IO\|M\%(H[HL]\=\|L[HL]\=\|
      \Y\)\=\|P\%(EI\|I\|ROT\)\=\|R\%(A\%(C[EG]\|P[24]\)\|E\|O[OT]\|T\%(E\|O\|RE\=\|T\)\=\)\=\|S\%(CH\)\=\)\|U\%(NPK[AU]\=\
      \|PT\)\|V\%(A\%(B\|C\%(C\%(B\|CQ\=\|F\|G\|H\|Q\)\=\|Q\)\=\|F\|G\|H\|P\|Q\|VG\%(B\|F\|G\|H\|L[BFGHQ]\=\|Q\)\=\)\=\|B\%
      \(LEND[BFGHQ]\=\|PERM\)\|C\%(D\%(GB\=\|LGB\=\)\|E\%(FB\|LFB\|Q\%(BS\=\|FS\=\|GS\=\|HS\=\|QS\=\)\=\)\|F\%(EB\|N\|P[LS]
      \\)\|GDB\=\|H\%(BS\=\|FS\=\|GS\=\|HS\=\|L\%(BS\=\|FS\=\|GS\=\|HS\=\|QS\=\)\=\|QS\=\)\=\|KSM\|L\%(F\%(EB\|N[HL]\|P\)\|
      \GDB\=\|Z\%(B\|DP\|F\|G\|H\|Q\)\=\)\|NF\|P\|RNF\|S\%(FP\|PH\)\|TZ[BFGHQ]\=\|V\%(B[GQ]\=\|D[GQ]\=\)\)\|D\%(F\|G\|L[FGQ
      \]\=\|P\|Q\)\=\|E\%(C\%(B\|F\|G\|H\|L[BFGHQ]\=\|Q\)\=\|R\%(IM[BFGH]\=\|LL\%(B\|F\|G\|H\|V[BFGH]\=\)\=\)\|S\%(L\%(B\|F
      \\|G\|H\|V[BFGH]\=\)\=\|R\%(A\%(B\|F\|G\|H\|V[BFGH]\=\)\=\|L\%(B\|F\|G\|H\|V[BFGH]\=\)\=\)\)\|VAL\)\|F\%(A\%(DB\|E\%(
      \BS\=\|FS\=\|HS\=\|Z\%(BS\=\|FS\=\|HS\=\)\)\=\|SB\)\=\|C\%(E\%(DBS\=\|SBS\=\)\=\|H\%(DBS\=\|E\%(DBS\=\|SBS\=\)\=\|SBS
      \\=\)\=\)\|D\%(DB\|SB\)\=\|E\%(E\%(BS\=\|FS\=\|HS\=\|Z\%(BS\=\|FS\=\|HS\=\)\)\=\|NE\%(BS\=\|FS\=\|HS\=\|Z\%(BS\=\|FS\
      \=\|HS\=\)\)\=\)\|I\%(DB\|SB\)\=\|K\%(E\%(DBS\=\|SBS\=\)\|H\%(DBS\=\|E\%(DBS\=\|SBS\=\)\|SBS\=\)\)\|L\%(C\%(DB\|SB\)\
      \|LS\=\|N\%(DB\|SB\)\|P\%(DB\|SB\)\|RD\=\)\|M\%(A\%(DB\|SB\|X\%(DB\|SB\)\=\)\=\|DB\|IN\%(DB\|SB\)\=\|S\%(B\|DB\|SB\)\
      \=\)\=\|NM\%(A\%(DB\|SB\)\=\|S\%(DB\|SB\)\=\)\|PSO\%(DB\|SB\)\=\|S\%(DB\|Q\%(DB\|SB\)\=\|SB\)\=\|TCI\%(DB\|SB\)\=\)\|
      \G\%(BM\|E\%(F\|G\|M[BFGHQ]\=\)\|FM\%(A[BFGH]\=\|B\|F\|G\|H\)\=\|M[BFGH]\=\)\|ISTR\%(BS\=\|FS\=\|HS\=\)\=\|L\%(B\%(B\
      \|R\%(F\|G\|H\|Q\|REP[FGH]\=\)\=\)\|C[BFGHQ]\=\|DEB\=\|E\%(B\%(R[FGH]\)\=\|DB\=\|F\|G\|H\|I[BFGH]\|R[FGH]\=\)\|GV[BFG
      \H]\=\|IP\|L\%(E\%(BRZ[EFGH]\=\|Z\%(B\|F\|G\|H\|LF\)\=\)\)\=\|M\|P[BFGHQ]\=\|R\%(EP[BFGH]\=\|LR\=\)\=\|VG[BFGHP]\=\)\
      \=\|M\%(A\%(E[BFGH]\=\|H[BFGHQ]\=\|L\%(B\|E[BFGH]\=\|F\|G\|H[BFGHQW]\=\|O[BFGH]\=\|Q\)\=\|O[BFGH]\=\)\|E[BFGH]\=\|H[B
      \FGHQ]\=\|L\%(B\|E[BFGH]\=\|F\|G\|H[BFGHQW]\=\|O[BFGH]\=\|Q\)\=\|N\%(B\|F\|G\|H\|L[BFGHQ]\=\|Q\)\=\|O[BFGH]\=\|P\|R\%
      \(H[BFGH]\=\|L[BFGH]\=\)\|S\%(LG\=\|P\)\|X\%(B\|F\|G\|H\|L[BFGHQ]\=\|Q\)\=\)\|N\%(C\|N\|OT\=\|X\)\=\|O\%(C\|NE\)\=\|P
      \\%(DI\|ERM\|K\%(F\|G\|H\|LS\%(FS\=\|GS\=\|HS\=\)\=\|S\%(FS\=\|GS\=\|HS\=\)\=\|ZR\=\)\=\|OPCT[BFGH]\=\|SOP\)\|R\%(EP\
      \%(B\|F\|G\|H\|I[BFGH]\=\)\=\|F\|G\|L[FGQ]\=\|P\|Q\)\=\|S\%(B\%(CBIQ\=\|IQ\=\)\=\|C\%(BI[BFGHQ]\=\|E[FG]\|H\%(DP\|P\|
      \SP\|XP\)\|SHP\)\|DP\|E\%(G[BFH]\=\|L\)\|F\|G\|H\|L\%(B\|DB\=\)\=\|P\|Q\|R\%(AB\=\|D\|LB\=\|PR\=\)\|T\%(BR[FGHQ]\=\|E
      \\%(B\%(R[FGH]\)\=\|F\|G\|H\|R[FGH]\=\)\|L\|M\|R\%(C\%(BS\=\|FS\=\|HS\=\|Z\%(BS\=\|FS\=\|HS\=\)\)\=\|LR\=\|S\%(B\|F\|
      \H\|Z[BFH]\)\=\)\)\=\|UM\%(B\|G[FH]\=\|H\|Q[FG]\=\)\=\)\=\|T[MPZ]\|UP\%(H[BFGH]\=\|KZ[HL]\=\|L\%(B\|F\|G\|H[BFGHW]\=\
      \|L[BFGH]\=\)\=\)\|X\|ZERO\)\|W\%(C\%(D\%(GB\|LGB\)\|E\%(FB\|LFB\)\|FEB\|GDB\|L\%(FEB\|GDB\)\)\|F\%(A\%(DB\|SB\|XB\)\
      \|C\%(DB\|E\%(DBS\=\|SBS\=\|XBS\=\)\|H\%(DBS\=\|E\%(DBS\=\|SBS\=\|XBS\=\)\|SBS\=\|XBS\=\)\|SB\|XB\)\=\|D\%(DB\|SB\|XB
      \\)\|I\%(DB\|SB\|XB\)\|K\%(DB\|E\%(DBS\=\|SBS\=\|XBS\=\)\|H\%(DBS\=\|E\%(DBS\=\|SBS\=\|XBS\=\)\|SBS\=\|XBS\=\)\|SB\|X
      \B\)\=\|L\%(C\%(DB\|SB\|XB\)\|L[DS]\|N\%(DB\|SB\|XB\)\|P\%(DB\|SB\|XB\)\|R[DX]\)\|M\%(A\%(DB\|SB\|X\%(B\|DB\|SB\|XB\)
      \\)\|DB\|IN\%(DB\|SB\|XB\)\|S\%(B\|DB\|SB\|XB\)\|XB\)\|NM\%(A\%(DB\|SB\|XB\)\|S\%(DB\|SB\|XB\)\)\|PSO\%(DB\|SB\|XB\)\
      \|S\%(DB\|Q\%(DB\|SB\|XB\)\|SB\|XB\)\|TCI\%(DB\|SB\|XB\)\)\|L\%(DEB\|EDB\)\|RD\)\|X\%(C\|G\%(RK\=\)\=\|H\%(HR\|LR\)\|
      \I\%(HF\|LF\|Y\)\=\|LHR\|RK\=\|SCH\|Y\)\=\|ZAP\)
      \\)\S\@!/
syntax match hlasmOrdinary contained nextgroup=hlasmOperands /\%<72v\%(
      \CSECT\|DC\|DROP\|DS\|DSECT\|END\|ENTRY\|EQU\|EXTRN\|LTORG\|ORG\|START
      \\|USING\|WXTRN\|COPY\|MNOTE\|ALIAS\|AMODE\|EJECT\|PRINT\|RMODE\|SPACE\|TITLE
      \\)\S\@!/
syntax match hlasmConditional contained nextgroup=hlasmFreeOperands /\%<72v\%(
      \ACTR\|ANOP\|GBLA\|GBLB\|GBLC\|LCLA\|LCLB\|LCLC\|MACRO\|MEND\|MEXIT
      \\)\S\@!/
syntax match hlasmCondition contained nextgroup=hlasmGroupedOperands /\%<72v\%(
      \AIF\|AGO\|SETA\|SETB\|SETC
      \\)\S\@!/

" The three sorts of operand fields. A blank ends them outside quotes; in the last two not behind a comma, where the rest
" of a line that is continued is remarks and the operands go on in the next line; in the last not within parentheses.
syntax cluster hlasmInOperands contains=hlasmContinued,hlasmAttribute,hlasmString,hlasmVariable
syntax region hlasmOperands contained start=/[ \t]\+\%<72v\S\@=/ end=/[^ \t]\@1<=[ \t]\@=/ end=/\%(^[ \t]\{15}\)\@15<=[ \t]\@=/ end=/\%>71c\%(^.\{71}\)\@300<=[ \t]\@=/ end=/$/ contains=@hlasmInOperands nextgroup=hlasmRemarks
syntax region hlasmFreeOperands contained start=/[ \t]\+\%<72v\S\@=/ end=/[^ \t,]\@1<=[ \t]\@=/ end=/,\@1<=[ \t]\@=\%(.*\%>71c\%(^.\{71}\)\@300<=\S\)\@!/ end=/\%(^[ \t]\{15}\)\@15<=[ \t]\@=\%(.*\%>71c\%(^.\{71}\)\@300<=\S\)\@!/ end=/\%>71c\%(^.\{71}\)\@300<=[ \t]\@=/ end=/$/ contains=@hlasmInOperands,hlasmCommaRemarks nextgroup=hlasmRemarks
syntax region hlasmGroupedOperands contained start=/[ \t]\+\%<72v\S\@=/ end=/[^ \t,]\@1<=[ \t]\@=/ end=/,\@1<=[ \t]\@=\%(.*\%>71c\%(^.\{71}\)\@300<=\S\)\@!/ end=/\%(^[ \t]\{15}\)\@15<=[ \t]\@=\%(.*\%>71c\%(^.\{71}\)\@300<=\S\)\@!/ end=/\%>71c\%(^.\{71}\)\@300<=[ \t]\@=/ end=/$/ contains=@hlasmInOperands,hlasmCommaRemarks,hlasmGroup nextgroup=hlasmRemarks
syntax region hlasmGroup contained start=/(/ end=/)/ end=/\%>71c\%(^.\{71}\)\@300<=[ \t]\@=/ end=/$/ contains=@hlasmInOperands,hlasmGroup

" Within operands: an attribute, whose apostrophe opens no text, texts, and variable symbols.
syntax match hlasmAttribute contained /[A-Z0-9$#@_&]\@1<![DIKLNOST]'[A-Z$#@_&=]\@=/
syntax region hlasmString contained start=/'/ end=/'/ end=/\%>71c\%(^.\{71}\)\@300<=[ \t]\@=/ end=/$/ contains=hlasmContinued,hlasmVariable
syntax match hlasmVariable contained /&[A-Z$#@_][A-Z0-9$#@_]*/

" Remarks: behind a comma up to column 71, and behind all operands.
syntax match hlasmCommaRemarks contained /\%(,\@1<=\|\%(^[ \t]\{15}\)\@15<=\)[ \t].*\%>71c\%(^.\{71}\)\@300<=\S\@=/
syntax region hlasmRemarks contained start=/\%<72v[ \t]/ end=/\%>71c\%(^.\{71}\)\@300<=[ \t]\@=/ end=/$/ contains=hlasmContinued,@Spell

highlight default link hlasmName Identifier
highlight default link hlasmMachine Statement
highlight default link hlasmOrdinary Statement
highlight default link hlasmConditional PreProc
highlight default link hlasmCondition PreProc
highlight default link hlasmMacro Function
highlight default link hlasmGenerated Function
highlight default link hlasmVariable Special
highlight default link hlasmString String
highlight default link hlasmComment Comment
highlight default link hlasmRemarks Comment
highlight default link hlasmCommaRemarks Comment
highlight default link hlasmUnread NonText
highlight default link hlasmBehindMark NonText
highlight default link hlasmMark Todo
highlight default link hlasmMargin Error

let b:current_syntax = 'hlasm'
