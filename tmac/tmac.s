.\" tmac.s: papers (nroff -ms). nroff_ms(7) says what each name does.
.\"
.\" Cover       .RP no   .TL   .AU   .AI   .AB no .AE   .DA date   .ND date   .P1
.\" Headings    .NH level   .NH S number ..   .SH     (texts on the lines below)
.\" Paragraphs  .PP .LP .QP .XP   .IP tag width   .QS .QE   .RS .RE   .RT
.\" Fonts       .B .I .R .BI .CW .UL .BX word behind before   .LG .SM .NL   .UX
.\" Displays    .DS kind .DE kept together   .ID .LD .CD .BD .RD not   .B1 .B2
.\" Keeps       .KS .KF .KE        Notes  \** and then .FS mark .FE
.\" Tables      .TS H .TH .TE      Equations  .EQ kind number .EN   .PS .PE
.\" References  of refer .]- .][ kind .]< .]>
.\" Contents    .XS page indent .XA .XE   .PX no   .TC no   .XN words .XH level words
.\" Others      .SC .P2 .UC .SG .CT, addresses .MH .HO .WH .IH .PY
.\" Of groff    .als .nop, and of www.tmac .URL .FTP .MTO .DC .ULS .OLS .DLS .LI
.\" Titles      .OH .EH .OF .EF 'left'centre'right'   strings LH CH RH LF CF RF
.\" Columns     .2C   .MC width gap   .1C
.\" Registers   LL LT FL PO HM FM PI QI DI FI PD DD FPD in u, PS VS FF PORPHANS
.\"             HORPHANS, H1 to H8, PN
.\" Options     -rLN lines of N cells (60), -rB1 title and headings in bold
.\"
.\" Long names are on (.cp 0). A width without a scale letter counts cells.
.\"
.\" Private names begin with ")". Registers:
.\"   )left )right margins of .RS and .QS, )pleft )pright those of a paragraph in
.\"   them, )width that of tags, )depth with )left1, )left2 .. the ones before
.\"   )cover 1 while its parts are set apart, 2 behind them, )titling 1 in the title,
.\"   )names 1 after .AU, )institution 1 after .AI,
.\"   )abstract 1 in it, )report 1 after .RP, )again 1 if the title comes again
.\"   )begun 1 from the first page on, )first 1 for a header on it, )aside 1 on a page
.\"   without header and footer, )top the first place below the header or of the columns,
.\"   )columns how many, )column this one, )gap between two, )all-LL )all-FL of the page,
.\"   )low lowest place of them   )wide height of notes from above them
.\"   )kind of a display   )keep depth of keeps, )keeping that of the one that is set apart
.\"   )boxed depth of boxes, )box-keep that of keeps around them
.\"   )float 1 in a keep that floats: of )kept )shown were printed, )wait1 .. are the
.\"   heights of )keep1 .., )floating 1 while they are printed
.\"   )marks numbers of notes in the text, )mark in notes   )raw notes not set yet, with
.\"   )room kept for them, )noted height of the set ones of this page, )later of the next
.\"   )font 1 while text is roman, 2 in italics, 3 in bold, )centred 1 while lines are centred
.\"   )row 1 while a line is kept aside, )rows its height, )set-apart1 1 if the footer
.\"   does so, with )footers depth of footers
.\"   )in-table 1 in a table, )flat 1 where a paragraph of it is in no block, )head height
.\"   of its head   )level of a heading, )style and )sn 1 for numbers without a point
.\" Private texts: )title )abstract-text, )tag-text )item )note-mark, )kept-text, )keepN, )raw-notes, )notes, )notes-later, )notes-over,
.\"   )line (kept aside), )contents, )head-text, )oh )eh )of )ef titles
.cp 0
.ds REFERENCES References
.ds ABSTRACT ABSTRACT
.ds TOC Table of Contents
.ds MONTH1 January
.ds MONTH2 February
.ds MONTH3 March
.ds MONTH4 April
.ds MONTH5 May
.ds MONTH6 June
.ds MONTH7 July
.ds MONTH8 August
.ds MONTH9 September
.ds MONTH10 October
.ds MONTH11 November
.ds MONTH12 December
.ds MO
.ds DY
.ds Q "\(dq
.ds U "\(dq
.ds - \(em
.ds * [\\n+[)marks]]
.ds {
.ds }
.ds <
.ds >
.ds CH -\\n(PN-
.ds )oh \a\\*(LH\a\\*[)blank]\\*(CH\a\\*(RH\a
.ds )eh \a\\*(LH\a\\*[)blank]\\*(CH\a\\*(RH\a
.ds )of \a\\*(LF\a\\*[)blank]\\*(CF\a\\*(RF\a
.ds )ef \a\\*(LF\a\\*[)blank]\\*(CF\a\\*(RF\a
.ds )unix (R)
.ds )bullet1 \(bu
.ds )bullet2 []
.ds )bullet3 --
.nr )marks 0 1
.nr )mark 0 1
.\" accents: letters stand without them
.ds '
.ds `
.ds ^
.ds ,
.ds :
.ds ~
.ds v
.ds _
.ds o
.ds .
.ds /
.ds hook
.ds C
.ds q o
.ds 3 3
.ds D- D
.ds d- d
.ds Th Th
.ds th th
.ds 8 ss
.ds Ae AE
.ds ae ae
.ds Oe OE
.ds oe oe
.ds ? ?
.ds ! !
.de AM
..
.\" ---- pages
.\" what the first page fixes
.de )begin
.nr )begun 1
.if !\\n(PO .nr PO \\n(.o
.if !\\n(LT .nr LT \\n(LL
.if !\\n(FL .nr FL \\n(LL*5/6
.if !\\n(VS .nr VS \\n(PS+2
.if \\n(PS>999 .if \\n(VS<1000 .nr VS \\n(PS+2000
..
.\" header; a page aside has none
.de )header
.if !\\n[)begun] .)begin
.nr PN \\n%
.nr )column 1
.po \\n(POu
.rs
'sp \\n(HMu/2u
.if !\\n[)aside] \{\
.lt \\n(LTu
.ft R
.)middle \\*(CH
.PT
.ft P
.HD
.\}
'sp |\\n(HMu
.nr )top \\n(nl
.if \\n[)later] .)notes-wait
.)place
.ns
..
.\" where the rest is odd the middle stands a blank further to the right
.de )middle
.ds )blank
.ds )middle-text \\$1 \\$2 \\$3 \\$4 \\$5 \\$6 \\$7 \\$8 \\$9
.nr )w \\n(LT-\w\a\\*[)middle-text]\a/24%2
.if \\n()w>0 .ds )blank "\ \&
..
.de PT
.ie \\n%=1 .if \\n[)first] .tl \\*[)oh]
.el \{\
.ie o .tl \\*[)oh]
.el .tl \\*[)eh]
.\}
..
.de BT
.ie o .tl \\*[)of]
.el .tl \\*[)ef]
..
.de P1
.ie \\n[)bell] .DS L
.el .nr )first 1
..
.\" the words of a macro with a blank between two of them, as )joined; definitions take this in
.de )join
.ds )joined "\\\\$1
.if !\a\\\\$2\a\a .as )joined " \\\\$2
.if !\a\\\\$3\a\a .as )joined " \\\\$3
.if !\a\\\\$4\a\a .as )joined " \\\\$4
.if !\a\\\\$5\a\a .as )joined " \\\\$5
.if !\a\\\\$6\a\a .as )joined " \\\\$6
.if !\a\\\\$7\a\a .as )joined " \\\\$7
.if !\a\\\\$8\a\a .as )joined " \\\\$8
.if !\a\\\\$9\a\a .as )joined " \\\\$9
..
.de OH
\*[)join].ds )oh "\\*[)joined]
..
.de EH
\*[)join].ds )eh "\\*[)joined]
..
.de OF
\*[)join].ds )of "\\*[)joined]
..
.de EF
\*[)join].ds )ef "\\*[)joined]
..
.\" notes that waited for this page
.de )notes-wait
.rn )notes-later )notes
.nr )noted \\n[)later]
.nr )later 0
..
.\" place of the footer, above the notes and the line before them
.de )place
.ch )footer
.nr )w \\n[)noted]+\\n[)room]
.if \\n()w .nr )w +40u
.if \\n[)wide] .nr )w +\\n[)wide]+40u
.nr )w \\n(.p-\\n(FM-\\n()w
.if \\n()w<(\\n(HM+120u) .nr )w \\n(HM+120u
.if \\n()w<=\\n(nl .nr )w \\n(nl+40u
.wh \\n()wu )footer
..
.\" footer, with the notes above it; its trap is out of the way meanwhile. The line under
.\" way is kept aside where something is put before it
.de )footer
.rs
.ch )footer
.nr )w \\n[)raw]+\\n[)noted]+\\n[)wide]+\\n[)head]+\\n[)kept]-\\n[)shown]
.nr )footers +1
.nr )set-apart\\n[)footers] \\n()w>0
.if \\n()w .)aside
.if \\n[)raw] .)set-at-bottom
.nr )room 0
.if \\n[)noted] .)print-notes
.if \\n(nl>\\n[)low] .nr )low \\n(nl
.ie \\n[)column]<\\n[)columns] .)next-column
.el .)end-page
.)place
.if !\\n[)floating] .if \\n[)kept]>\\n[)shown] .)floats
.if \\n[)head] .)print-head
.if \\n[)set-apart\\n[)footers]] .)back
.nr )footers -1
..
.de )end-page
.po \\n(POu
.if \\n[)wide] .)print-wide-notes
.nr )low 0
'sp |(\\n(.pu-(\\n(FMu/2u))
.if !\\n[)aside] \{\
.lt \\n(LTu
.ft R
.)middle \\*(CF
.BT
.ft P
.\}
'bp
..
.\" where the columns of this page begin, further to the right
.de )next-column
.nr )column +1
.nr )o \\n(LL+\\n[)gap]*(\\n[)column]-1)+\\n(PO
.po \\n()ou
'sp |\\n[)top]u
.if \\n[)later] .)notes-wait
.ns
..
.\" the line under way is kept aside; it comes back as one word
.de )aside
.nr )row +1
.if \\n[)row]=1 \{\
.di )line
.br
.di
.nr )rows \\n(dn
.\}
..
.de )back
.nr )row -1
.if !\\n[)row] .if \\n[)rows] \{\
.nr )rows 0
'ti 0
\&\\*[)line]\|
.\}
..
.\" room, but for what stands at a page's top
.de )need
.if \\n(nl>\\n[)top] .if '\\n(.z'' .if \\n(.t<(\\$1) \{\
.rs
'sp \\n(.tu
.\}
..
.\" end: what is open is closed, what waits for the next page gets one
.de )end
.if \\n[)cover]=1 .)print-cover
.)close
.br
.if \\n[)raw] .)set-now
.if \\n[)aside] .)end-aside
.)last
..
.\" what was begun and has no end ends, from the inside
.de )close
.)close-inner
.if \\n[)closed] .)close
.if \\n[)kind] .DE
..
.de )close-inner
.nr )closed 1
.ie '\\n(.z')equation' .)end-equation
.el .ie '\\n(.z')head-text' .)end-head
.el .ie '\\n(.z')block' .)end-block
.el .ie '\\n(.z')box' .)end-box
.el .ie '\\n(.z')kept-text' .)end-keep
.el .ie '\\n(.z')entry-text' .)end-entry
.el .nr )closed 0
..
.\" the same of what was begun inside this
.de )close-to
.if !'\\n(.z'\\$1' \{\
.)close-inner
.if \\n[)closed] .)close-to \\$1
.\}
..
.\" ends the page, and those that are needed for what waits
.de )last
.if '\\n(.z'' .)last-pages
..
.de )last-pages
.nr )column \\n[)columns]
.if \\n(nl \{\
.rs
.bp
.\}
.if \\n[)later]+\\n[)noted]+\\n[)kept]-\\n[)shown] \{\
.if !\\n(nl \{\
.bp
.rs
.bp
.\}
.)last
.\}
..
.\" how lines are adjusted is remembered, since a title is centred meanwhile
.rn ad )ad
.rn na )na
.de ad
.nr )ragged 0
.if \\n(.$ .ds )adjust \\$1
.)ad \\*[)adjust]
..
.de na
.nr )ragged 1
.)na
..
.ds )adjust b
.\" ---- cover
.de RP
.nr )report 1
.nr )again 1
.if '\\$1'no' .nr )again 0
.nr )aside 1
.pn 0
..
.de DA
\*[)join].if \\n(.$ .ds DY "\\*[)joined]
.ds CF \\*(DY
..
.de ND
\*[)join].if \\n(.$ .ds DY "\\*[)joined]
..
.\" a part of the cover: set apart before the first paragraph, else where it is
.de )part
.ie \\n[)cover]<2 \{\
.)close-part
.nr )cover 1
.da )title
.\}
.el .)reset
..
.de )close-part
.if \\n[)abstract] .)close
.br
.if '\\n(.z')title' .if \\n[)titling] .sp
.if \\n[)cover]=1 .if !'\\n(.z'' .di
.if \\n[)abstract] \{\
.nr )abstract 0
.nr )left 0
.nr )right 0
.nr )has-abstract 1
.\}
.ce 0
.nr )centred 0
.if \\n[)titling] \{\
.nr )titling 0
.rn nf )title-nf
.rn )nf nf
.rn fi )title-fi
.rn )fi fi
.\}
.)ad \\*[)adjust]
.if \\n[)ragged] .)na
.fi
.)set-font 1
.in 0
.ll \\n(LLu
..
.\" the title is filled, each line in the middle; the names are lines as they are
.de TL
.)part
.ie \\n[)cover]=2 \{\
.sp
.)centre
.)strong
.\}
.el \{\
.in \\n(LLu/12u
.ll \\n(LLu-(\\n(LLu/12u)
.)ad c
.nr )titling 1
.rn nf )nf
.rn )title-nf nf
.rn fi )fi
.rn )title-fi fi
.if \\nB .)set-font 3
.\}
..
.\" lines of the title as they are stand in the middle too
.de )title-nf
.br
.ce 10000
..
.de )title-fi
.ce 0
..
.\" a row above the first names, and above those after an institution
.de AU
.)part
.ie \\n[)names] .if \\n[)institution] .sp
.el .sp
.nr )names 1
.nr )institution 0
.)centre
.if \\nB .)set-font 2
..
.de AI
.)part
.nr )institution 1
.)centre
..
.de )centre
.nr )centred 1
.ce 10000
..
.de AB
.)close-part
.nr )cover 1
.da )abstract-text
.nr )abstract \\n(LL/12
.nr )left \\n[)abstract]
.nr )right \\n[)abstract]
.if !'\\$1'no' \{\
.ce
\&\fI\\*[ABSTRACT]\fR
.sp
.\}
.ns
.)start 0 0
.ti +\\n(PIu
..
.de AE
.if \\n[)abstract] .)print-cover
..
.de )print-cover
.if \\n[)cover]=1 .)print-parts
..
.de )print-parts
.)close-part
.nr )cover 2
.ie \\n[)report] .)print-report
.el \{\
.rs
.sp 3
.)title
.if \\n[)has-abstract] \{\
.sp 2
.)abstract-text
.\}
.if \\n[)raw] .)set-now
.sp
.\}
.rm )title
.rm )abstract-text
.)reset
..
.\" a page of its own, and the title again on the next
.de )print-report
.rs
.sp 3
.)title
.sp 3
.if \\n[)has-abstract] .)abstract-text
.sp 3
\&\\*(DY
.br
.if \\n[)raw] .)set-now
.)end-aside
.if \\n[)again] \{\
.sp
.rs
.sp 3
.)title
.\}
.sp
..
.de )end-aside
.rs
.bp 1
.nr )aside 0
..
.\" ---- paragraphs
.\" settings that each of them begins with
.de )reset
.br
.ft R
.nr )font 1
.ie \\n[)in-table] .)reset-block
.el .)reset-lines
..
.\" in a table: in a text block its indent, which counts from there, else nothing
.de )reset-block
.nr )flat 0
.ie '\\n(.z'\\*[)table-in]' .nr )flat 1
.el .in \\n[)pleft]u
..
.de )reset-lines
.if \\n[)cover]<2 .)before-text
.ce 0
.nr )centred 0
.ul 0
.fi
.ie \\n(VS>999 .vs \\n(VSp/1000u
.el .if \\n(VS .vs \\n(VSp
.ll \\n(LLu-\\n[)right]u-\\n[)pright]u
.in \\n[)left]u+\\n[)pleft]u
.TA
.if \\n[)raw] .if !\\n[)keep] .if '\\n(.z'' .)set-now
..
.de )before-text
.if !\\n[)abstract] \{\
.ie \\n[)cover] .)print-cover
.el .nr )cover 2
.\}
.if \\n[)aside] .if !\\n[)abstract] .)end-aside
..
.de TA
.ta 5 10 15 20 25 30 35 40 45 50 55 60 65 70 75 80 85 90 95 100 105 110 115 120
..
.\" begins one with margins of its own
.de )start
.if \\n[)in-equation] .EN
.if \\n[)kind] .DE
.nr )pleft \\$1
.nr )pright \\$2
.)reset
.sp \\n(PDu
.ne \\n[PORPHANS]v+1v
..
.de )finish
.nr )pleft 0
.nr )pright 0
.)reset
..
.de RT
.)finish
..
.de LP
.nr )width \\n(PI
.)start 0 0
..
.de PP
.nr )width \\n(PI
.)start 0 0
.ti +\\n(PIu
..
.de QP
.nr )width \\n(PI
.)start \\n(QI \\n(QI
..
.de XP
.)start \\n(PI 0
.if !\\n[)flat] .ti -\\n(PIu
..
.\" paragraph with a tag, whose blanks stay as they are
.de IP
.if \\n(.$>1 .nr )width 0
.if \\n(.$>1 .nr )width \\$2n
.)start \\n[)width] 0
.ds )tag-text "\\$1
.nr )w \w\a\\$1\a
.ie \\n[)flat] \&\\$1\ \c
.el .if \\n()w .)tag
..
.de )tag
.ti -\\n[)width]u
.ie \\n()w<\\n[)width] \{\
'nf
\&\\*[)tag-text]\h\a|\\n[)width]u\a\c
'fi
.\}
.el \{\
\&\\*[)tag-text]
.br
.\}
..
.\" margins: kept, and as they were
.de )keep-margins
.br
.nr )depth +1
.nr )left\\n[)depth] \\n[)left]
.nr )right\\n[)depth] \\n[)right]
.nr )width\\n[)depth] \\n[)width]
.nr )pleft\\n[)depth] \\n[)pleft]
.nr )pright\\n[)depth] \\n[)pright]
..
.de )margins-before
.br
.if \\n[)depth] \{\
.nr )left \\n[)left\\n[)depth]]
.nr )right \\n[)right\\n[)depth]]
.nr )width \\n[)width\\n[)depth]]
.nr )pleft \\n[)pleft\\n[)depth]]
.nr )pright \\n[)pright\\n[)depth]]
.nr )depth -1
.\}
..
.de RS
.if \\n[)cover]<2 .)reset
.)keep-margins
.nr )left +\\n[)width]
.nr )width \\n(PI
.)reset
..
.de RE
.)margins-before
.)reset
..
.de QS
.if \\n[)cover]<2 .)reset
.)keep-margins
.nr )left +\\n(QI
.nr )right +\\n(QI
.nr )width \\n(PI
.)start 0 0
..
.de QE
.)margins-before
.)start 0 0
..
.\" ---- headings
.de )heading
.if \\n[)in-equation] .EN
.if \\n[)abstract] .AE
.)finish
.ne 3v+\\n[HORPHANS]v+\\n(PDu
.sp
.ti \\n(.iu
.)strong
..
.\" the font of headings: bold where that is asked for, else italics
.de )strong
.ie \\nB .)set-font 3
.el .)set-font 2
..
.de SH
.if \\n[)kind] .DE
.)heading
..
.de NH
.if \\n[)kind] .DE
.ie '\\$1'S' .)set-numbers \\$2 \\$3 \\$4 \\$5 \\$6 \\$7 \\$8 \\$9
.el .)next-number \\$1
.ds SN-NO-DOT \\n(H1
.nr )i 1
.if \\n[)level]>1 .)add-number
.ds SN-DOT \\*[SN-NO-DOT].
.ie \\n[)sn] .ds SN \\*[SN-NO-DOT]
.el .ds SN \\*[SN-DOT]
.ie \\n[)style] .ds SN-STYLE \\*[SN-NO-DOT]
.el .ds SN-STYLE \\*[SN-DOT]
.)heading
.if !\\nB .ft R
\&\\*[SN-STYLE]
.)strong
..
.de )set-numbers
.nr )level \\n(.$
.if !\\n(.$ .nr )level 1
.nr H1 1
.nr H1 \\$1
.nr H2 \\$2
.nr H3 \\$3
.nr H4 \\$4
.nr H5 \\$5
.nr H6 \\$6
.nr H7 \\$7
.nr H8 \\$8
..
.de )next-number
.nr )i \\n[)level]
.nr )level 1
.if \\n(.$ .nr )level 0
.if \\n(.$ .nr )level \\$1
.if \\n[)level]<1 \{\
.nr )i 0
.nr )level 1
.\}
.if \\n[)level]>9 .nr )level 9
.if \\n[)level]>\\n()i .)no-number
.nr H\\n[)level] +1
..
.de )no-number
.nr )i +1
.nr H\\n()i 0
.if \\n[)level]>\\n()i .)no-number
..
.de )add-number
.nr )i +1
.as SN-NO-DOT .\\n[H\\n()i]
.if \\n[)level]>\\n()i .)add-number
..
.\" of groff: what numbers of headings look like
.de als
.if '\\$1'SN-STYLE' .ie '\\$2'SN-NO-DOT' .nr )style 1
.if '\\$1'SN-STYLE' .el .nr )style 0
.if '\\$1'SN' .ie '\\$2'SN-NO-DOT' .nr )sn 1
.if '\\$1'SN' .el .nr )sn 0
..
.\" of later groff: the text of a heading, and an entry of the contents
.de XN
\&\\$1 \\$2 \\$3 \\$4 \\$5 \\$6 \\$7 \\$8 \\$9
\*[)join].XS
\\*[SN]\0 \\*[)joined]
.XE
..
.de XH
\&\\$2 \\$3 \\$4 \\$5 \\$6 \\$7 \\$8 \\$9
.ds )joined "\\$2
.if !\a\\$3\a\a .as )joined " \\$3
.if !\a\\$4\a\a .as )joined " \\$4
.if !\a\\$5\a\a .as )joined " \\$5
.if !\a\\$6\a\a .as )joined " \\$6
.if !\a\\$7\a\a .as )joined " \\$7
.if !\a\\$8\a\a .as )joined " \\$8
.if !\a\\$9\a\a .as )joined " \\$9
.XS
\\*[)joined]
.XE
..
.\" of the Bell Laboratories
.de SC
.nr )bell 1
.NH
\&\\$1 \\$2 \\$3 \\$4 \\$5 \\$6 \\$7 \\$8 \\$9
..
.de P2
.if \\n[)bell] .DE
..
.de UC
\&\\$1 \\$2 \\$3 \\$4 \\$5 \\$6 \\$7 \\$8 \\$9
..
.\" what .SG names stands behind room to sign
.de SG
.)finish
.sp 3
.if \\n(.$ \&\\$1 \\$2 \\$3 \\$4 \\$5 \\$6 \\$7 \\$8 \\$9
..
.\" addresses
.de MH
Bell Laboratories
Murray Hill, New Jersey 07974
..
.de HO
Bell Laboratories
Holmdel, New Jersey 07733
..
.de WH
Bell Laboratories
Whippany, New Jersey 07981
..
.de IH
Bell Laboratories
Naperville, Illinois 60540
..
.de PY
Bell Laboratories
Piscataway, New Jersey 08854
..
.\" of Berkeley: the title of a chapter
.de CT
.)finish
.sp
.)centre
.)strong
..
.\" ---- fonts: a word, what stands behind it, before it; of more words all
.de )set-font
.nr )font \\$1
.ft \\$1
..
.de B
.if \\n(.$>3 \{\
\*[)join].\}
.ie \\n(.$>3 \&\fB\\*[)joined]\fP
.el .ie \\n(.$ \&\\$3\fB\\$1\fP\\$2
.el .)set-font 3
..
.de I
.if \\n(.$>3 \{\
\*[)join].\}
.ie \\n(.$>3 \&\fI\\*[)joined]\fP
.el .ie \\n(.$ \&\\$3\fI\\$1\fP\\$2
.el .)set-font 2
..
.de R
.if \\n(.$>3 \{\
\*[)join].\}
.ie \\n(.$>3 \&\fR\\*[)joined]\fP
.el .ie \\n(.$ \&\\$3\fR\\$1\fP\\$2
.el .)set-font 1
..
.de CW
.if \\n(.$>3 \{\
\*[)join].\}
.ie \\n(.$>3 \&\fR\\*[)joined]\fP
.el .ie \\n(.$ \&\\$3\fR\\$1\fP\\$2
.el .R
..
.de BI
.if \\n(.$>3 \{\
\*[)join].\}
.ie \\n(.$>3 \&\fI\\*[)joined]\fP
.el .ie \\n(.$ \&\\$3\fI\\$1\fP\\$2
.el .I
..
.de UL
.if \\n(.$>2 \{\
\*[)join].\}
.ie \\n(.$>2 \&\fI\\*[)joined]\fP
.el .if \\n(.$ \&\fI\\$1\fP\\$2
..
.de BX
\*[)join]\&[\\*[)joined]]
..
.de UX
\&UNIX\\$1\\*[)unix]
.ds )unix
..
.de LG
.if \\n(.$ \&\\$1 \\$2 \\$3 \\$4 \\$5 \\$6 \\$7 \\$8 \\$9
..
.de SM
.if \\n(.$ \&\\$1 \\$2 \\$3 \\$4 \\$5 \\$6 \\$7 \\$8 \\$9
..
.de NL
.if \\n(.$ \&\\$1 \\$2 \\$3 \\$4 \\$5 \\$6 \\$7 \\$8 \\$9
..
.\" ---- displays: )kind 1 as they come, 2 a block in the middle, 3 at the right
.de LD
.if \\n[)kind] .DE
.)reset
.sp \\n(DDu
.)display \\$0
..
.de )display
.nr )kind 1
.nf
..
.de ID
.LD
.)indent-display "\\$1"
..
.de )indent-display
.nr )w \\n(DI
.nr )w \\$1n
.in +\\n()wu
..
.de CD
.LD
.)centre
..
.de BD
.LD
.nr )kind 2
.di )block
..
.de RD
.LD
.nr )kind 3
.)right-line
..
.\" lines at the right: each is measured by itself
.de )right-line
.di )block
.it 1 )right-put
..
.de )right-put
.it 1 )right-put
.if '\\n(.z')block' \{\
.)right-end
.)right-line
.\}
..
.de )right-end
.br
.it
.di
.nr )right-in \\n(.i
.nr )o \\n(.l-\\n(dl
.if \\n()o<0 .nr )o 0
.in \\n()ou
.)block
.in \\n[)right-in]u
..
.de DS
.if \\n[)kind] .DE
.)reset
.sp \\n(DDu
.KS
.nr )kept-display 1
.)display
.ie '\\$1'L' \{\
.\}
.el .ie '\\$1'C' .)centre
.el .ie '\\$1'B' \{\
.nr )kind 2
.di )block
.\}
.el .ie '\\$1'R' \{\
.nr )kind 3
.)right-line
.\}
.el .ie '\\$1'I' .)indent-display "\\$2"
.el .)indent-display "\\$1"
..
.de DE
.if \\n[)kind]>1 .)close-to )block
.if '\\n(.z')block' .)end-block
.if \\n[)kind] .)end-display
..
.de )end-display
.br
.nr )kind 0
.)plain
.if \\n[)kept-display] \{\
.nr )kept-display 0
.KE
.\}
.)reset
.if \\n(.d .sp \\n(DDu
.ns
.nr )behind \\n(.d
..
.de )plain
.ce 0
.nr )centred 0
.in \\n[)left]u+\\n[)pleft]u
.fi
..
.de )end-block
.ie \\n[)kind]=3 .)right-end
.el \{\
.br
.di
.nr )o \\n(.l-\\n(dl/2
.if \\n()o<0 .nr )o 0
.in \\n()ou
.)block
.\}
.nr )kind 1
..
.\" ---- keeps: set apart, then placed where they fit, with their notes; the register *+
.\" tells how much less room the tables in it take than their parts together
.de KS
.br
.if \\n[)cover]<2 .)reset
.if \\n[)raw] .if !\\n[)keep] .)set-now
.nr )keep +1
.if '\\n(.z'' \{\
.nr )keeping \\n[)keep]
.nr *+ 0
.di )kept-text
.\}
..
.de KF
.ie '\\n(.z'' .)begin-float
.el .KS
..
.\" a floating one: the line under way waits meanwhile
.de )begin-float
.if \\n[)cover]<2 .)reset
.)aside
.nr )float 1
.nr )f-fill \\n(.u
.nr )f-in \\n(.i
.nr )f-ll \\n(.l
.nr )f-font \\n[)font]
.)keep-margins
.nr )left 0
.nr )right 0
.nr )pleft 0
.nr )pright 0
.nr )width \\n(PI
.nr )keep 1
.nr )keeping 1
.nr *+ 0
.di )kept-text
.)reset
..
.de KE
.br
.if \\n[)kind] .if !\\n[)kept-display] .DE
.nr )o \\n[)box-keep]+1
.ie \\n[)boxed]=0:(\\n[)keep]>\\n()o) .)pop-keep
.el .if \\n[)box-keep] \{\
.nr )boxed 1
.B2
.)pop-keep
.\}
..
.\" ends a keep: a box that was begun in it has ended, and one around it stays
.de )pop-keep
.if \\n[)keep] .ie \\n[)keep]=\\n[)keeping] \{\
.)close-to )kept-text
.if '\\n(.z')kept-text' .)end-keep
.\}
.el .nr )keep -1
..
.de )end-keep
.br
.di
.nr )keep \\n[)keeping]
.nr )keeping 0
.nr )kept-space \\n(dn=\\n[)behind]
.nr )height \\n(dn-\\n(*+
.if \\n(*+ .nr )height +1v
.ie \\n[)float] .)end-float
.el .)put-keep
.if \\n[)keep] .nr )keep -1
..
.de )put-keep
.nr )note-height 0
.if \\n[)raw] .)set
.)need \\n[)height]+\\n[)note-height]
.nr )keep-in \\n(.i
.in 0
.)kept-text
.in \\n[)keep-in]u
.rm )kept-text
.if \\n[)note-height] .)allot
.if \\n[)kept-space] .ns
..
.de )end-float
.nr )float 0
.)margins-before
.ie \\n[)f-fill] .fi
.el .nf
.in \\n[)f-in]u
.ll \\n[)f-ll]u
.)set-font \\n[)f-font]
.nr )w \\n(.t-\\n[)rows]
.if !\\n(nl .nr )w -\\n(HM
.nr )here \\n()w-\\n[)height]+1
.if \\n[)kept]>\\n[)shown] .nr )here 0
.if \\n[)here]<1 \{\
.nr )kept +1
.nr )wait\\n[)kept] \\n[)height]
.rn )kept-text )keep\\n[)kept]
.\}
.)back
.if \\n[)here]>0 \{\
.br
.)put-keep
.\}
..
.\" those that waited, at the page's top: the first in any case
.de )floats
.nr )floating 1
.nr )force 1
.)next-float
.nr )floating 0
..
.de )next-float
.nr )i \\n[)shown]+1
.nr )o \\n(.t
.if !\\n(nl .nr )o -\\n(HM
.if \\n[)force] .nr )o \\n[)wait\\n()i]
.nr )force 0
.if \\n()o>=\\n[)wait\\n()i] \{\
.nr )shown \\n()i
.nr )float-in \\n(.i
'in 0
.)keep\\n[)shown]
.rm )keep\\n[)shown]
'in \\n[)float-in]u
.if \\n[)kept]>\\n[)shown] .)next-float
.\}
..
.\" ---- notes: the text is set at the next break, or at the page's bottom if that
.\" comes first; three lines are kept for it till then
.de FS
.ds )m "\\$1
.nr )own \\n(.$
.if !\\n(.$ .if \\n[)marks]>\\n[)mark] .ds )m \\n+[)mark]
.nr )raw +1
.am )raw-notes FE
.ds )note-mark "\\*()m
.)note \\n[)own] \\n(FF
..
.de FE
.if \\n(.t>160u .if !\\n[)keep] .if '\\n(.z'' \{\
.nr )room +120u
.)place
.\}
.)look
..
.\" fifteen lines above the bottom the notes are set while a line is under way, so that they
.\" stand on the page of their mark; that is looked at after each line of the text
.de )look
.if \\n[)raw] .if '\\n(.z'' .if !\\n[)keep] \{\
.nr )w \\n(.p-\\n(FM-\\n[)noted]-\\n(nl-(400u*\\n[)raw])
.ie \\n()w<200 .if \\n(nl .)set-aside
.el .it 1 )look
.\}
..
.de )set-aside
.)aside
.)set
.nr )room 0
.)place
.nr )w \\n[)noted]=0*40u+\\n[)rows]+80u
.if \\n(.t<\\n()w .if \\n(nl>\\n[)top] \{\
.rs
'sp \\n(.tu
.\}
.)allot
.)back
..
.\" begins a note, of the mark )note-mark: 1 if it is the writer's own, the form that it has
.de )note
.)finish
.if \\n[)second-note] .sp \\n[FPD]u
.nr )second-note 1
.nr )form \\n(FF
.nr FF \\$2
.if !\a\\*[)note-mark]\a\a .FP "\\\\*[)note-mark]" \\$1
.nr FF \\n[)form]
..
.\" how notes begin, by FF
.de FP
.ds )m "\\$1
.if \w\a\\$1\a .if !'\\$2'1' .ds )m "\\$1.
.if \w\a\\$1\a .if !'\\$2'1' .if !\\n(FF .ds )m "[\\$1]
.if \\n(FF<2 .ti \\n(FIu
.ie \\n(FF=3 \{\
.in (\\n(FIu*2u)
.nr )w \w\a\\*()m\a
.ti -(\\n(FIu*2u)
.ie \\n()w<(\\n(FI*2) \{\
'nf
\&\\*()m\h\a|(\\n(FIu*2u)\a\c
'fi
.\}
.el \&\\*()m\ \c
.\}
.el .if \w\a\\$1\a \&\\*()m\ \c
..
.\" sets the notes that wait to be set; no line is under way. Paragraphs in them have
.\" the settings of notes
.de )set
.)keep-margins
.nr )n-fill \\n(.u
.nr )n-in \\n(.i
.nr )n-ll \\n(.l
.nr )n-vs \\n(.v
.nr )n-centred \\n[)centred]
.nr )n-font \\n[)font]
.nr )n-kind \\n[)kind]
.nr )n-keep-in \\n[)keep-in]
.nr )n-keep \\n[)keep]
.nr )n-keeping \\n[)keeping]
.nr )n-boxed \\n[)boxed]
.nr )n-LL \\n(LL
.nr )n-PI \\n(PI
.nr )n-PD \\n(PD
.nr )n-VS \\n(VS
.nr LL \\n(FL
.nr PI \\n(FI
.nr PD \\n[FPD]
.nr VS 12
.nr )left 0
.nr )right 0
.nr )kind 0
.nr )keep 0
.nr )boxed 0
.nr )raw 0
.nr )second-note 0
.if \\n[)noted] .nr )second-note 1
.rn )raw-notes )set-notes
.di )new-notes
.)set-notes
.)close
.br
.di
.rm )set-notes
.nr )note-height \\n(dn
.nr LL \\n[)n-LL]
.nr PI \\n[)n-PI]
.nr PD \\n[)n-PD]
.nr VS \\n[)n-VS]
.nr )kind \\n[)n-kind]
.nr )keep-in \\n[)n-keep-in]
.nr )keep \\n[)n-keep]
.nr )keeping \\n[)n-keeping]
.nr )boxed \\n[)n-boxed]
.vs \\n[)n-vs]u
.)margins-before
.ll \\n[)n-ll]u
'in \\n[)n-in]u
.)set-font \\n[)n-font]
.if !\\n[)n-fill] 'nf
.nr )centred \\n[)n-centred]
.if \\n[)centred] 'ce 10000
..
.\" at a break
.de )set-now
.)set
.nr )room 0
.)place
.)allot
..
.\" at the bottom, where there may be room for them
.de )set-at-bottom
.)set
.nr )w \\n[)later]
.if \\n(.p-\\n(nl-\\n(FM<(\\n[)noted]+\\n[)note-height]+40u) .nr )w 1
.)store
..
.\" for this page, if two lines have room and none waits, else for the next
.de )allot
.nr )w \\n[)later]
.nr )o \\n(.t
.if !\\n(nl .nr )o -\\n(HM
.nr )rest \\n[)note-height]
.if \\n[)rest]>80 .nr )rest 80
.if \\n()o<(\\n[)noted]=0*40u+\\n[)rest]+40u) .nr )w 1
.ie \\n()w .)store
.el \{\
.)store
.)place
.\}
..
.de )store
.ie \\n()w \{\
.da )notes-later
.nr )later +\\n[)note-height]
.\}
.el \{\
.da )notes
.nr )noted +\\n[)note-height]
.\}
.nr )n-in \\n(.i
'in 0
.)new-notes
.di
'in \\n[)n-in]u
.rm )new-notes
..
.\" notes below a rule; what has no room is for the next page, before the notes that wait
.de )print-notes
.nr )n-in \\n(.i
'in 0
.nr )noted 0
.nr )n-vs \\n(.v
.vs 40u
.lt \\n(LTu
.tl \a\l'11n'\a\a\a
.wh -\\n(FMu )catch
.)notes
.if '\\n(.z')notes-over' .)end-catch
.ch )catch
.rm )notes
.vs \\n[)n-vs]u
'in \\n[)n-in]u
..
.de )catch
.di )notes-over
..
.de )end-catch
.nr )over \\n(.d
.if \\n[)later] .)notes-later
.di
.rm )notes-later
.rn )notes-over )notes-later
.nr )later +\\n[)over]
..
.\" ---- boxes
.de B1
.br
.if \\n[)cover]<2 .)reset
.if \\n[)raw] .if !\\n[)keep] .)set-now
.nr )boxed +1
.if \\n[)boxed]=1 .)begin-box
..
.de )begin-box
.nr )box-keep \\n[)keep]
.nr )keep +1
.nr )box-in \\n(.i
.nr )box-ll \\n(.l
.nr )left +1n
.nr )right +1n
.in +1n
.ll -1n
.di )box
..
.de B2
.if \\n[)kind] .DE
.br
.if \\n[)boxed]=1 .)close-to )box
.ie \\n[)boxed]>1 .nr )boxed -1
.el .if '\\n(.z')box' .)end-box
..
.de )end-box
.br
.di
.nr )boxed 0
.nr )keep \\n[)box-keep]
.nr )left -1n
.nr )right -1n
.nr )height \\n(dn
.nr )box-fill \\n(.u
.nf
.nr )note-height 0
.if !\\n[)keep] .if \\n[)raw] .)set
.)need \\n[)height]+\\n[)note-height]+120u
.in \\n[)box-in]u
.ll \\n[)box-ll]u
.nr )box-w \\n(.l-\\n(.i-2n
.nr )box-v \\n(.v
.vs 40u
.)box-rule
.)box-bars \\n[)box-in] \\n[)box-w] \\n[)height]
.in 0
.)box
.in \\n[)box-in]u
.)box-rule
.vs \\n[)box-v]u
.in \\n[)left]u+\\n[)pleft]u
.ll \\n(LLu-\\n[)right]u-\\n[)pright]u
.rm )box
.if \\n[)box-fill] .fi
.if \\n[)note-height] .)allot
..
.de )box-rule
\&+\l'\\n[)box-w]u-'+
..
.\" the bars, at an indent, so far apart, so high; the text is put over them. In a
.\" diversion they wait till that is printed, and they stand on one page only
.de )box-bars
.ie '\\n(.z'' .)draw-bars \\$1 \\$2 \\$3
.el \!.)box-bars \\$1 \\$2 \\$3
..
.de )draw-bars
.if !\\n(nl 'sp
.if \\$3 .if \\n(.t>(\\$3+40) \{\
.nr )i \\n(.i
.nr )o \\n(.u
'nf
'in \\$1u
.nr )v \\n(.v
.vs 40u
.rs
.nr )box-top \\n(nl
.nr )box-end \\n(nl+\\$3
.)bar \\$2
'sp |\\n[)box-top]u
.vs \\n()vu
'in \\n()iu
.if \\n()o 'fi
.\}
..
.de )bar
\&|\h'\\$1u'|
.if \\n(nl<\\n[)box-end] .)bar \\$1
..
.\" ---- tables; the head of one with a head stands again on each page. In the head tbl asks
.\" for room for the whole table, which may go on over pages: nothing is asked there
.de TS
.br
.if \\n[)cover]<2 .)reset
.if \\n[)raw] .if !\\n[)keep] .)set-now
.nr )t-fill \\n(.u
.sp \\n(DDu
.nr )in-table 1
.ds )table-in \\n(.z
.nf
.if '\\$1'H' .)begin-head
..
.de )begin-head
.nr )in-head 1
.di )head-text
..
.de TH
.if \\n[)in-head] .)close-to )head-text
.if '\\n(.z')head-text' .)end-head
..
.de )end-head
.br
.di
.nr )in-head 0
.nr )head-height \\n(dn
.if \\n(dn .)put-head
..
.de )put-head
.)need \\n[)head-height]+40u
.nr )head-in \\n(.i
.in 0
.rn ne )ne
.)head-text
.rn )ne ne
.in \\n[)head-in]u
.if '\\n(.z'' .if \\n[)head-height]<(\\n(.p-\\n(HM-\\n(FM-80u) .nr )head \\n[)head-height]
..
.de )print-head
.nr )head-in \\n(.i
'in 0
.rn ne )ne
.)head-text
.rn )ne ne
'in \\n[)head-in]u
..
.de TE
.TH
.br
.nr )in-table 0
.nr )flat 0
.nr )head 0
.if \\n[)t-fill] .fi
.if \\n(.d .sp \\n(DDu
.ns
.nr )behind \\n(.d
..
.de T&
..
.\" ---- equations and pictures: what stands between, set apart
.de EQ
.if \\n[)in-equation] .EN
.br
.if \\n[)cover]<2 .)reset
.if \\n[)raw] .if !\\n[)keep] .if '\\n(.z'' .)set-now
.nr )e-kind 2
.ds )e-number "\\$2
.ie '\\$1'L' .nr )e-kind 0
.el .ie '\\$1'I' .nr )e-kind 1
.el .if !'\\$1'C' .ds )e-number "\\$1
.nr )e-fill \\n(.u
.nr )e-in \\n(.i
.in 0
.nf
.nr )in-equation 1
.di )equation
..
.de EN
.if \\n[)in-equation] .)close-to )equation
.if '\\n(.z')equation' .)end-equation
..
.de )end-equation
.br
.di
.nr )in-equation 0
.nr )e-number-width \w\a\\*[)e-number]\a
.nr )e-width \\n(dl
.nr )height \\n(dn
.if \\n(dl:\\n[)e-number-width] .)put-equation
.in \\n[)e-in]u
.if \\n[)e-fill] .fi
..
.de )put-equation
.sp \\n(DDu
.)need \\n[)height]+80u
.nr )e-at \\n[)e-in]
.if \\n[)e-kind]=1 .nr )e-at +\\n(DI
.if \\n[)e-kind]=2 .nr )e-at +(\\n(.l-\\n[)e-in]-\\n[)e-width]/2)
.if \\n[)e-at]<0 .nr )e-at 0
.in \\n[)e-at]u
.)equation
.in 0
.if \\n[)e-number-width] .)put-number
.if \\n(.d .sp \\n(DDu
.ns
..
.de )put-number
.nr )i \\n(.l-\\n[)e-number-width]
.if \\n()i<0 .nr )i 0
.if '\\n(.z'' .if \\n[)height] .if \\n[)e-at]+\\n[)e-width]+1n<=\\n()i 'sp -1
.rs
\&\h'\\n()iu'\\*[)e-number]
..
.de PS
.br
.if \\n[)cover]<2 .)reset
.nr )p-fill \\n(.u
.sp \\n(DDu
.nf
..
.de PE
.br
.if \\n[)p-fill] .fi
.if \\n(.d .sp \\n(DDu
.ns
..
.de PF
.PE
..
.\" ---- contents: entries are kept as they are read, with their page
.de XS
.if !\\n(nl .if '\\n(.z'' .nr PN \\n%
.am )contents XE
.XA "\\$1" "\\$2" \\n(PN
..
.de XE
..
.\" an entry: page ("no" for none), indent; the page where it stood
.de XA
.)end-entry
.nr )entry 1
.if \\n(.$>2 .ds )page \\$3
.ds )number \\$1
.if '\\$1'' .ds )number \\*[)page]
.if '\\$1'no' .ds )number
.in 0
.nr )w 0
.nr )w \\$2n
.in \\n()wu
.ll \\n(LLu-8n
.fi
.di )entry-text
..
.de )end-entry
.if \\n[)entry] \{\
.nr )entry 0
.br
.nr )entry-end \\n(.i+\\n(.n
.di
.nf
.in 0
.ll \\n(LLu
.nr )number-width \w\a\\*[)number]\a
.nr )entry-height \\n(dn
.ne \\n(dnu+1v
.)entry-text
.if \\n[)entry-height] .if \\n[)number-width] 'sp -1
.rs
.nr )o \\n(LL-\\n[)entry-end]-\\n[)number-width]-2n
.if \\n()o<0 .nr )o 0
.if \\n[)number-width] \h'\\n[)entry-end]u'\ \l'\\n()ou.'\ \\*[)number]
.\}
..
.de PX
.)finish
.ne 5v
.if !'\\$1'no' \{\
.ce
.)strong
\&\\*[TOC]
.)set-font 1
.\}
.sp 2
.)contents
.)end-entry
.)finish
..
.de TC
.)close
.)finish
.)last
.nr )first 1
.pn 1
.af PN i
.nr PN 1
.PX \\$1
..
.\" ---- columns, from here to the end of the page and on; LL is the width of one meanwhile
.de 2C
.MC
..
.de 1C
.)close
.)finish
.if \\n[)columns]>1 .)end-columns
..
.de MC
.1C
.if \\n[)raw] .)set-now
.nr )w \\n[)noted]+120-\\n(.p+\\n(FM+\\n(nl
.if !\\n[)noted] .nr )w 0
.if \\n()w>0:(\\n[)later]+\\n[)kept]-\\n[)shown]>0) .)last
.if !\\n[)begun] .)begin
.nr )all-LL \\n(LL
.nr )all-FL \\n(FL
.nr )w \\n(LL*7/15
.nr )gap \\n(LL-(2*\\n()w)
.if \\n(.$ .)column-width \\$1n \\$2
.if \\n()w<24 .nr )w 24
.nr )columns \\n(LL-\\n()w/(\\n()w+\\n[)gap])+1
.if \\n[)columns]>1 .)begin-columns
..
.de )column-width
.if 0<\\$1 .nr )w \\$1
.if \\n()w>\\n(LL .nr )w \\n(LL
.nr )gap \\n[MINGW]
.if \\n(.$>1 .nr )gap \\$2n
.if \\n[)gap]<0 .nr )gap 0
..
.de )begin-columns
.nr )w \\n()w/24*24
.nr )gap \\n(LL-(\\n()w*\\n[)columns])/(\\n[)columns]-1)
.nr LL \\n()w
.nr FL \\n()w*5/6
.nr )column 1
.sp
.nr )top \\n(nl
.nr )low 0
.if \\n[)noted] .)widen-notes
.)finish
..
.\" notes from above the columns stand below all of them
.de )widen-notes
.nr )wide \\n[)noted]
.nr )noted 0
.rn )notes )wide-notes
.)place
..
.de )print-wide-notes
.rs
.if \\n(nl<\\n[)low] 'sp |\\n[)low]u
.rn )wide-notes )notes
.nr )wide 0
.)print-notes
.if \\n[)later] \{\
.rn )notes-later )wide-notes
.nr )wide \\n[)later]
.nr )later 0
.\}
..
.\" the end of the columns, and of the page
.de )end-columns
.if \\n[)raw] .)set-now
.nr )column \\n[)columns]
.if \\n(nl \{\
.rs
.bp
.\}
.if \\n[)later]+\\n[)kept]-\\n[)shown] .)last
.nr )columns 1
.nr LL \\n[)all-LL]
.nr FL \\n[)all-FL]
.)finish
..
.\" ---- references, as refer hands them on: fields [A, [T .. , of which )field adds each that is
.\" there, a comma or a stop before it, and what closes it after the next one
.ds [. [
.ds .] ]
.ds <. .
.ds <, ,
.ds >.
.ds >,
.de ]-
.nr [A 0
.nr [O 0
.nr [P 0
.nr [T 0
..
.de )field
.ds )text "\\*([\\$1
.if !\a\\*[)text]\a\a \{\
.if !\a\\*[)reference]\a\a \{\
.if !\\n[)stopped] .as )reference "\\$2
.as )reference "\\*[)closing]
.if !'\\$1'N' .as )reference " \&
.\}
.as )reference "\\$3\\*[)text]\\$4
.ds )closing "\\$5
.nr )stopped 0
.if \\n(.$>5 .nr )stopped \\$6
.rm [\\$1
.\}
..
.\" the end of one, and its kind: 0 and 2 have the title in italics
.de ][
.ds )reference
.ds )closing
.nr )stopped 0
.)field Q ,
.)field A , "" "" "" \\n([A
.ie (0\\$1=0):(0\\$1=2) .)field T , "\fI" "" "\fR" \\n([T
.el .)field T , "\\*Q" "" "\\*U" \\n([T
.)field J , "\fI" "" "\fR"
.)field B "" "in \fI" "" "\fR"
.)field E , "ed. "
.)field R ,
.)field G "" "(" ")"
.)field S ,
.)field V "" "\fB" "\fR"
.ie 0\\$1=4 .)field N "" "\ "
.el .)field N "" "(" ")"
.ie \\n([P .)field P , "pp.\ "
.el .)field P , "p.\ "
.)field I ,
.)field C ,
.)field D "" "(" ")"
.)field O . "" "" "" \\n([O
.if !\\n[)stopped] .as )reference .
.as )reference "\\*[)closing]
.ie \\n[)listing] .)list-reference
.el .)note-reference
.ds [F
..
.de []
.][ \\$1
..
.de )list-reference
.ie \a\\*([F\a\a .XP
.el .IP "\\*([F."
\&\\*[)reference]
..
.de )note-reference
.ds )text
.if !\a\\*([F\a\a .ds )text "[\\*([F]
.FS "\\*[)text]"
\&\\*[)reference]
.FE
..
.\" around those that stand together
.de ]<
.nr )listing 1
.SH
\&\\*[REFERENCES]
.LP
..
.de ]>
.nr )listing 0
.)finish
..
.\" index words are not printed
.de IX
..
.\" ---- links, as www.tmac of groff has them
.de URL
.ie \a\\$2\a\a \&<\\$1>\\$3
.el \&\\$2 <\\$1>\\$3
..
.de FTP
.ie \a\\$2\a\a \&<\\$1>\\$3
.el \&\\$2 <\\$1>\\$3
..
.de MTO
.ie \a\\$2\a\a \&\\$1\\$3
.el \&\\$2 <\\$1>\\$3
..
.de DC
\&\\$1\\$2
..
.de ULS
.RS
.nr )list\\n[)depth] 1
.nr )bullets +1
..
.de ULE
.nr )bullets -1
.RE
..
.de OLS
.RS
.nr )list\\n[)depth] 2
.nr )item\\n[)depth] 0
..
.de OLE
.RE
..
.de DLS
.RS
.nr )list\\n[)depth] 3
..
.de DLE
.RE
..
.de LI
.nr )w \\n[)list\\n[)depth]]
.ie \\n()w=1 .IP \\*[)bullet\\n[)bullets]] 3
.el .ie \\n()w=3 \{\
.ds )item "\\$1
.IP "\\\\*[)item]"
.\}
.el \{\
.nr )item\\n[)depth] +1
.IP \\n[)item\\n[)depth]]. 4
.\}
..
.\" of groff: a line of text
.de nop
\&\\$1 \\$2 \\$3 \\$4 \\$5 \\$6 \\$7 \\$8 \\$9
..
.\" ---- the beginning
.if \nL .nr LL \nLn
.if !\n(LL .nr LL 6i
.nr GS 1
.nr PS 10
.nr HM 1i
.nr FM 1i
.nr PI 5n
.nr QI 5n
.nr DI 5n
.nr FI 2n
.nr PD 1v
.nr DD 1v
.nr PSINCR 1p
.nr PORPHANS 1
.nr HORPHANS 1
.nr MINGW 2n
.nr )width 5n
.ll \n(LLu
.TA
.nr )columns 1
.nr )column 1
.wh 0 )header
.em )end
.\" end of tmac.s
