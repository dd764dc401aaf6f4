.\" tmac.e: papers of Berkeley (nroff -me). nroff_me(7) says what each name does.
.\"
.\" Paragraphs  .pp .lp .np .bu   .ip tag width
.\" Headings    .sh depth title numbers ..   .sx depth   .uh title   hooks $p $0 $1 .. $6
.\" Titles      .he .fo .eh .oh .ef .of 'left'centre'right'   .hx .m1 .m2 .m3 .m4 .$h .$f .$H
.\" Displays    .(l .)l .(q .)q   .(b .)b kept together   .(z .)z float   .(c .)c a block
.\" Notes       \** and then .(f .)f   \*# and then .(d .)d, .pd   .$s
.\" Index       .(x index .)x page author   .xp index
.\" Columns     .2c gap number   .1c   .bc
.\" Fonts       .r .i .b .rb .bi .u .q .bx .sm word after   .sz
.\" Pages       .bp .pa .ep .sk .ro .ar .bl .hl .re .ba .ix .xl .ll .po .n1 .n2
.\" Papers      .tp   .++ kind header   .+c title   hooks $c $C
.\" References  of refer .]- .][ kind .]< .]>
.\" Tables      .TS H .TH .TE      Others  .EQ kind title .EN .PS .PE .GS .GE .IS .IE
.\" Options     -rLN lines of N cells (60)
.\"
.\" Long names are on (.cp 0). A width without a scale letter counts cells.
.\"
.\" There are no environments: what one keeps stands in registers while another is used,
.\" and a line under way is kept aside. Private names begin with "@". Registers:
.\"   @depth, with @in1 @ll1 .. the settings before a display   @environments depth of .ev
.\"   @font of the text, 1 roman, 2 italics, 3 bold, and @before-font   @centred 1 while lines are centred
.\"   @mode 1 C, 2 L, 3 I, 4 M of a display, @filled 1 for F
.\"   @titling 1 while a title is printed   @own-top 1 if the paper has a $H
.\"   @begun 1 from the first page on, @late 1 on that one, @first 1 while nothing stands there
.\"   @top first place of the columns, @text-top of their text, @low lowest place of columns
.\"   @ending 1 while a column ends   @offset page offset   @full length of a whole line
.\"   @plain 1 on a page without header and footer, @plain-next on the next; so @chapter,
.\"   where the header stands at the foot   @same 1 if the next page's number stays
.\"   @blank 1 if the next page stays empty
.\"   @row 1 while a line is kept aside, @rows its height, @set-apart1 1 if the footer
.\"   does so, with @footers depth of footers
.\"   @raw notes not set yet, @room kept for them, @noted height of the set ones of this
.\"   column, @later of the next, @wide of those from above columns   @setting 1 while they are set
.\"   @note-marks how often \** was read, @text-marks \*#
.\"   @keep depth of keeps, @height of one   @float1 .. 1 for one that floats   @foot height
.\"   of those at the foot of this page, @kept @shown those for later ones with @wait1 ..
.\"   @in-table 1 in a table, @flat 1 where a paragraph of it is in no block, @head height
.\"   of its head   @kind of .++, @renumber 1 where it numbers pages anew
.\"   @entries of indexes, with @entry-end1 .. the width of the last line
.\"   @listing 1 in a list of references, @stopped 1 where one ends with a stop
.\" Private texts: @header-even and the like, @keep1 .., @foot-text, @wait-text1 .., @raw-notes,
.\"   @notes, @wide-notes, @notes-later, @notes-over, @line (kept aside), @delayed, @head-text,
.\"   @index-NAME, @entry1 .. with @entry-index1 @entry-page1 @entry-author1
.cp 0
.\" ---- what stands for an environment
.rn ft @ft
.de ft
.@ft \\$1
.nr @o \\n[@before-font]
.nr @before-font \\n[@font]
.nr @font 1
.if '\\$1'I' .nr @font 2
.if '\\$1'2' .nr @font 2
.if '\\$1'B' .nr @font 3
.if '\\$1'3' .nr @font 3
.if '\\$1'P' .nr @font \\n(@o
.if '\\$1'' .nr @font \\n(@o
..
.de @push
.nr @depth +1
.nr @in\\n[@depth] \\n(.i
.nr @ll\\n[@depth] \\n(.l
.nr @fill\\n[@depth] \\n(.u
.nr @vs\\n[@depth] \\n(.v
.nr @centred\\n[@depth] \\n[@centred]
.nr @font\\n[@depth] \\n[@font]
..
.de @pop
.if \\n[@depth] \{\
'in \\n[@in\\n[@depth]]u
.xl \\n[@ll\\n[@depth]]u
.vs \\n[@vs\\n[@depth]]u
.ie \\n[@fill\\n[@depth]] 'fi
.el 'nf
.nr @centred \\n[@centred\\n[@depth]]
.ie \\n[@centred] 'ce 10000
.el 'ce 0
.ft \\n[@font\\n[@depth]]
.nr @depth -1
.\}
..
.\" settings of a text set apart: those of the place, a whole line, single spaced
.de @apart
.xl \\n($lu
.vs 40u
'ce 0
.nr @centred 0
..
.\" of environments themselves the indent
.de ev
.ie \\n(.$ \{\
.@aside
.@push
.@apart
.nr @environments +1
.ds @environment\\n[@environments] \\$1
.fi
.in \\n[@environment-in\\$1]u
.\}
.el .if \\n[@environments] .@end-environment
..
.de @end-environment
.br
.nr @environment-in\\*[@environment\\n[@environments]] \\n(.i
.nr @environments -1
.@pop
.@back
..
.\" a distance; half a line is no row. In titles nothing breaks
.rn sp @sp
.de sp
.if !\\n[@titling] .br
.ie \\n(.$ '@sp \\$1-1u
.el '@sp
..
.de @space
.nr @o \\$1
.if \\n(@o .sp \\n(@ou
..
.\" ---- titles, in force from the next page on
.de @join
.ds @joined "\\\\$1
.if \\\\n(.$>1 .as @joined " \\\\$2
.if \\\\n(.$>2 .as @joined " \\\\$3
.if \\\\n(.$>3 .as @joined " \\\\$4
.if \\\\n(.$>4 .as @joined " \\\\$5
.if \\\\n(.$>5 .as @joined " \\\\$6
.if \\\\n(.$>6 .as @joined " \\\\$7
.if \\\\n(.$>7 .as @joined " \\\\$8
.if \\\\n(.$>8 .as @joined " \\\\$9
..
.de eh
\*[@join].ds @next-header-even "\\*[@joined]
.@first-texts
..
.de oh
\*[@join].ds @next-header-odd "\\*[@joined]
.@first-texts
..
.de he
\*[@join].ds @next-header-even "\\*[@joined]
.ds @next-header-odd "\\*[@joined]
.@first-texts
..
.de ef
\*[@join].ds @next-footer-even "\\*[@joined]
.@first-texts
..
.de of
\*[@join].ds @next-footer-odd "\\*[@joined]
.@first-texts
..
.de fo
\*[@join].ds @next-footer-even "\\*[@joined]
.ds @next-footer-odd "\\*[@joined]
.@first-texts
..
.de @title-of
.ie e .ds @title "\\*[@\\$1-even]
.el .ds @title "\\*[@\\$1-odd]
..
.de $h
.if !\\n[@chapter] \{\
.@title-of header
.if !\a\\*[@title]\a\a 'tl \\*[@title]
.\}
..
.de $f
.ds @title
.if \\n[@chapter] .@title-of header
.if \a\\*[@title]\a\a .@title-of footer
.if !\a\\*[@title]\a\a 'tl \\*[@title]
..
.rn de @de
.@de de
.if '\\$1'$H' .nr @own-top 1
.@de \\$1 \\$2
..
.\" prints one, in its own font
.de @print-title
.if !\\n[@plain] \{\
.lt \\n[@full]u
.nr @title-font \\n[@font]
.nr @title-in \\n(.i
.nr @title-fill \\n(.u
'in 0
'nf
.ft \\n(tf
.nr @titling 1
.\\$1
.nr @titling 0
.if \\n[@title-fill] 'fi
'in \\n[@title-in]u
.ft R
.ft \\n[@title-font]
.\}
..
.\" what is in force when a page begins. A break begins the first one: what comes before
.\" anything stands there counts for it, and its header is printed at its end
.de @texts
.rn @next-header-even @header-even
.rn @next-header-odd @header-odd
.rn @next-footer-even @footer-even
.rn @next-footer-odd @footer-odd
..
.de @flags
.nr @plain \\n[@plain-next]
.nr @plain-next 0
.nr @chapter \\n[@chapter-next]
.nr @chapter-next 0
..
.de @look-first
.nr @first 0
.ie \\n[@begun] .if \\n[@late] .if \\n(nl<=\\n[@text-top] .nr @first 1
.el .nr @first 1
..
.de @first-texts
.@look-first
.if \\n[@first] .@texts
..
.\" ---- pages
.de @header
.nr @late \\n[@begun]=0
.nr @begun 1
.@texts
.@flags
.nr @low 0
.@po \\n[@offset]u
.rs
.if !\\n[@late] .@print-header
.if \\n(tm<40 .nr tm 1v
'@sp |\\n(tmu
.nr @top \\n(nl
.nr $c 1
.if \\n[@same] .pn \\n%
.nr @same 0
.if \\n[@later] .@notes-wait
.@place
.ie \\n[@blank] \{\
.nr @blank 0
.rs
'@bp
.\}
.el .@top-of-text
..
.de @print-header
.if \\n(hm>0 '@sp |\\n(hmu
.@print-title $h
.rs
..
.\" the top of a page or of a column; a line under way stays out of what a paper prints there
.de @top-of-text
.if \\n[@own-top] \{\
.@aside
.$H
.br
.@back
.\}
.nr @text-top \\n(nl
.ns
..
.de @notes-wait
.rn @notes-later @notes
.nr @noted \\n[@later]
.nr @later 0
..
.\" place of the footer, above what stands at the foot
.de @place
.ch @footer
.nr @w \\n[@noted]+\\n[@room]
.if \\n(@w .nr @w +120u-(\\n[@foot]>0*40u)
.if \\n[@wide] .nr @w +\\n[@wide]+120u
.if \\n(bm<40 .nr bm 1v
.nr @w \\n(.p-\\n(bm-\\n(@w-\\n[@foot]
.if \\n(@w<(\\n(tm+120u) .nr @w \\n(tm+120u
.if \\n(@w<=\\n(nl .nr @w \\n(nl+40u
.wh \\n(@wu @footer
..
.\" the end of a column, with what stands at its foot; its trap is out of the way meanwhile
.de @footer
.rs
.ch @footer
.nr @ending 1
.nr @w \\n[@raw]+\\n[@noted]+\\n[@wide]+\\n[@foot]+\\n[@head]+\\n[@kept]-\\n[@shown]
.nr @footers +1
.nr @set-apart\\n[@footers] \\n(@w>0
.if \\n(@w .@aside
.if \\n[@foot] .@print-foot
.if \\n[@raw] .@set-at-bottom
.nr @room 0
.if \\n[@noted] .@print-notes
.if \\n(nl>\\n[@low] .nr @low \\n(nl
.ie \\n($c<\\n($m .@next-column
.el .@end-page
.if \\n[@kept]>\\n[@shown] .if !\\n[@floating] .@floats
.if \\n[@head] .@print-head
.if \\n[@set-apart\\n[@footers]] .@back
.nr @footers -1
..
.de @next-column
.nr @ending 0
.rs
'@sp |\\n[@top]u
.@po +\\n($lu
.@po +\\n($su
.nr $c +1
.if \\n[@later] .@notes-wait
.@place
.@top-of-text
..
.de @end-page
.@po \\n[@offset]u
.if \\n[@wide] .@print-wide-notes
.rs
.if \\n[@late] .@print-header
.nr @late 0
'@sp |(\\n(.pu-\\n(fmu-40u)
.@print-title $f
.nr $c 1
.nr @ending 0
'@bp
.@place
..
.\" the line under way is kept aside; it comes back as one word
.de @aside
.nr @row +1
.if \\n[@row]=1 \{\
.di @line
.br
.di
.nr @rows \\n(dn
.\}
..
.de @back
.nr @row -1
.if !\\n[@row] .if \\n[@rows] \{\
.nr @rows 0
'ti 0
\&\\*[@line]\|
.\}
..
.\" a new page, which begins at once; none where nothing stands on this one, but with a number
.rn bp @bp
.de bp
.if !\\n[@ending] .if '\\n(.z'' .@new-page \\$1
..
.de @new-page
.br
.@settle
.@look-first
.ie \\n[@first] \{\
.if \\n[@plain-next]+\\n[@chapter-next] .@flags
.if \\n(.$ .pn \\$1
.if \\n(.$ .if \\n(nl>0 .nr % \\$1
.\}
.el .ie \\n(nl>0 \{\
.if \\n(.$:(\\n(nl>\\n[@text-top]) \{\
.@eject \\$1
.@begin
.\}
.\}
.el \{\
.if \\n(.$ .pn \\$1
.@begin
.\}
..
.de @eject
.nr $c \\n($m
.rs
.@bp \\$1
..
.de @begin
.nr $c 1
.if !\\n(nl .sp
..
.de pa
.bp \\$1
..
.de ep
.br
.@settle
.@look-first
.if !\\n[@first] .if \\n(nl>0 .@eject
..
.de hx
.nr @plain-next 1
..
.de sk
.nr @blank 1
..
.de ro
.af % i
..
.de ar
.af % 1
..
.\" a title page; its number is that of the page before it
.de tp
.nr @plain-next 1
.br
.@look-first
.ie \\n[@first] .nr % \\n%-1
.el .nr @same 1
.bp
.rs
..
.\" begins the page, whose first lines may be empty
.de @open
.if !\\n(nl .sp
.rs
..
.de m1
.nr @w \\n(hm
.nr hm \\$1v
.nr tm +\\n(hm-\\n(@w
..
.de m2
.nr tm \\n(hm+1v+\\$1v
..
.de m3
.nr bm \\n(fm+1v+\\$1v
..
.de m4
.nr @w \\n(fm
.nr fm \\$1v
.nr bm +\\n(fm-\\n(@w
..
.rn ll xl
.de ll
.xl \\$1
.lt \\n(.lu
.nr $l \\n(.l
.if \\n($m<2 .nr @full \\n(.l
..
.rn po @po
.de @set-offset
.@po \\$1
.nr @offset \\n(.o
..
.de ix
'in \\$1
..
.de bl
.br
.ne \\$1
.rs
.sp \\$1
..
.de n1
..
.de n2
..
.de ls
.nr @w 1
.if \\n(.$ .nr @w \\$1
.if \\n(@w<1 .nr @w 1
.vs 40u*\\n(@wu
..
.de re
.ta 5 10 15 20 25 30 35 40 45 50 55 60 65 70 75 80 85 90 95 100 105 110 115 120
..
.de ba
.ie \\n(.$ .nr $i \\$1n
.el .nr $i \\n(si*\\n($0
..
.de hl
.ti \\n(.iu
\l'\\n(.lu-\\n(.iu'
.sp
..
.\" ---- columns
.de 2c
.br
.@close
.@settle
.if \\n($m>1 .1c
.if \\n[@noted]+200>(\\n(.p-\\n(bm-\\n(nl) .if \\n[@noted] .@last
.if \\n[@later] .@last
.if \\n[@noted] .@widen-notes
.nr $c 1
.nr $m 2
.if \\n(.$>1 .nr $m \\$2
.if \\n($m<1 .nr $m 1
.if \\n(.$ .nr $s \\$1n
.if !\\n(nl .@open
.nr $l \\n(.l-((\\n($m-1)*\\n($s)/\\n($m
.if \\n($l<24 .nr $l 24
.xl \\n($lu
.nr @top \\n(nl
.nr @text-top \\n(nl
.nr @low 0
.@place
.ns
..
.de 1c
.br
.@close
.if \\n($m>1 \{\
.@settle
.if \\n(nl>\\n[@low] .nr @low \\n(nl
.if \\n[@noted]+\\n[@later]+\\n[@wide]+\\n[@foot] .@end-columns
.nr $c 1
.nr $m 1
.nr $l \\n[@full]
.xl \\n[@full]u
.@po \\n[@offset]u
.rs
.if \\n(nl<\\n[@low] '@sp |\\n[@low]u
.@place
.\}
..
.\" notes from above the columns stand below all of them
.de @widen-notes
.nr @wide \\n[@noted]
.nr @noted 0
.rn @notes @wide-notes
..
.de @print-wide-notes
.rs
.if \\n(nl<\\n[@low] '@sp |\\n[@low]u
.rn @wide-notes @notes
.nr @wide 0
.@print-notes
.if \\n[@later] \{\
.rn @notes-later @wide-notes
.nr @wide \\n[@later]
.nr @later 0
.\}
..
.\" notes and floats at the foot of columns end the page
.de @end-columns
.@eject
.@open
..
.de bc
.br
.@close
.@settle
.rs
.ie \\n($m>1 '@sp \\n(.tu
.el .if \\n(nl .bp
..
.\" ---- paragraphs
.de @paragraph
.if \\n[@in-equation] .EN
.if '\\n(.z'@entry' .)x
.br
.ie \\n[@in-table] .@table-paragraph \\$1
.el \{\
.in \\n($iu+\\n(pou
.if \\n(.$ .in +\\$1u
.ce 0
.nr @centred 0
.ul 0
.fi
.ie \\n(pf .ft \\n(pf
.el .ft R
.@settle
.@space \\n(ps
.ne 2v
.ns
.\}
..
.\" in a table: in a text block its indent, which counts from there
.de @table-paragraph
.nr @flat 0
.ft R
.ie '\\n(.z'\\*[@table-in]' .nr @flat 1
.el \{\
.in 0
.if \\n(.$ .in \\$1u
.\}
..
.\" notes that wait are set where no line is under way
.de @settle
.if \\n[@raw] .if '\\n(.z'' .if !\\n[@setting] .@set-now
..
.de lp
.@paragraph
.nr $p 0 1
..
.de pp
.@paragraph
.ti +\\n(piu
.nr $p 0 1
..
.de ip
.nr @width \\n(ii
.if \\n(ii<24 .nr @width \\n(ii*24
.if \\n(.$>1 .nr @width \\$2n
.ds @tag "\\$1
.nr @tag-width \w\a\\$1\a
.@paragraph \\n[@width]
.if \\n[@tag-width] .@print-tag
..
.\" a tag, whose blanks stay as they are
.de @print-tag
.ie \\n[@flat] \&\\*[@tag]\ \c
.el \{\
.ti -\\n[@width]u
.ie \\n[@tag-width]<\\n[@width] \{\
'nf
\&\\*[@tag]\h\a|\\n[@width]u\a\c
'fi
.\}
.el \{\
\&\\*[@tag]
.br
.\}
.\}
..
.de np
.if '\\n($p'-1' .nr $p 0
.nr $p +1
.nr @width 7n
.ds @tag "\ (\\n($p)
.nr @tag-width 1n
.@paragraph \\n[@width]
.@print-tag
..
.de bu
.br
.if '\\n($p'-1' .ns
.nr $p 0-1
.nr @width 3n
.ds @tag "\ \(bu
.nr @tag-width 1n
.@paragraph \\n[@width]
.@print-tag
..
.\" ---- headings
.de sh
.br
.if '\\n(.z'@entry' .)x
.fi
.ce 0
.nr @centred 0
.if !'\\$1'' .nr $0 \\$1
.if \\n($0>6 .nr $0 6
.if \\n($0>0 .nr $\\n($0 +1
.@numbers \\$3 \\$4 \\$5 \\$6 \\$7 \\$8
.if !\a\\$2\a_\a \{\
.ds @heading "\&\\$2
.$p "\\\\*[@heading]" "\\*($n" \\n($0
.$0 "\\\\*[@heading]" "\\*($n" \\n($0
.\}
.nr $p 0 1
..
.\" the numbers of the sections, and the name $n
.de @numbers
.ds $n \&
.@number 1 "\\$1"
.@number 2 "\\$2"
.@number 3 "\\$3"
.@number 4 "\\$4"
.@number 5 "\\$5"
.@number 6 "\\$6"
..
.de @number
.ie \\n($0<\\$1 .nr $\\$1 0
.el \{\
.if !\\n($\\$1 .nr $\\$1 1
.if !'\\$2'' .if !'\\$2'-' .nr $\\$1 \\$2
.if \\$1>1 .as $n .
.as $n \\n($\\$1
.\}
..
.de sx
.br
.ce 0
.nr @w \\n($0-1
.if \\n(.$ .nr @w \\n($0
.if \\n(.$ .nr @w \\$1
.nr $0 \\n(@w
.@numbers
.$p "" "" \\n($0
.nr $p 0 1
..
.de uh
.ds @heading "\\$1
.$p "\\\\*[@heading]"
.$0 "\\\\*[@heading]"
..
.de $p
.br
.if \\n[@in-equation] .EN
.if \\n(si>0 .if \\n(si<24 .nr si \\n(si*24
.if \\n(si>0 .if \\n(.$>2 .nr $i \\$3*\\n(si
.in \\n($iu
.ce 0
.fi
.@settle
.ie \a\\$1\\$2\a\a \{\
.@space \\n(ps
.ft R
.\}
.el \{\
.@space \\n(ss
.ne 3v+\\n(psu
.ie 0\\$3 .ti -(\\n(siu-\\n(sou)
.el .ti +\\n(sou
.ft \\n(sf
.if 0\\$3 .$\\$3
.if \w\a\\$2\a>0 \\$2.
.if \w\a\\$1\a>0 \\$1\fR\ \ \&
.ft R
.\}
..
.de $0
..
.de $1
..
.de $2
..
.de $3
..
.de $4
..
.de $5
..
.de $6
..
.\" ---- displays: C in the middle, L at the left, I indented, M at the margin; F filled
.de @set-mode
.nr @mode \\$1
.nr @filled 0
.@letter \\$2
.@letter \\$3
..
.de @letter
.if '\\$1'C' .nr @mode 1
.if '\\$1'L' .nr @mode 2
.if '\\$1'I' .nr @mode 3
.if '\\$1'M' .nr @mode 4
.if '\\$1'F' .nr @filled 1
..
.de @display
.@push
.@apart
.ie \\n[@filled] .fi
.el .nf
.if \\n(df>1 .ft \\n(df
.if \\n[@mode]=4 .in 0
.if \\n[@mode]=3 \{\
.in +\\n(biu
.xl -\\n(biu
.\}
.if \\n[@mode]=1 \{\
.nr @centred 1
.ce 10000
.\}
..
.de (l
.br
.@settle
.@space \\n(bs
.@set-mode 3 \\$1 \\$2
.@display
..
.de )l
.br
.@pop
.@settle
.@space \\n(bs
..
.de (q
.br
.@settle
.@push
.@apart
.fi
.@space \\n(qs
.in +\\n(qiu
.xl -\\n(qiu
..
.de )q
.br
.@pop
.@settle
.@space \\n(qs
..
.\" ---- keeps: set apart, then placed where they fit, with their notes
.de (b
.br
.@settle
.@space \\n(bs
.@set-mode 3 \\$1 \\$2
.@begin-keep
..
.de @begin-keep
.@display
.nr @keep +1
.nr @float\\n[@keep] 0
.di @keep\\n[@keep]
.rs
..
.\" ends it; what was begun in it and has no end ends too
.de @end-keep
.br
.if '\\n(.z'@equation' .EN
.if '\\n(.z'@block' .)c
.di
.@pop
.nr @height \\n(dn
..
.de )b
.br
.if \\n[@keep] .ie \\n[@float\\n[@keep]] .)z
.el \{\
.@end-keep
.@put-keep
.@space \\n(bs
.\}
..
.de @put-keep
.nr @note-height 0
.if '\\n(.z'' .if \\n[@raw] .@set
.if '\\n(.z'' .if \\n(bt=0:(\\n(.t<\\n(bt) .@need \\n[@height]+\\n[@note-height]
.nr @keep-in \\n(.i
.nr @keep-fill \\n(.u
'in 0
'nf
.@keep\\n[@keep]
.rm @keep\\n[@keep]
'in \\n[@keep-in]u
.if \\n[@keep-fill] 'fi
.nr @keep -1
.if \\n[@note-height] .@allot
..
.\" room, but for what stands at a column's top
.de @need
.if \\n(nl>\\n[@text-top] .if '\\n(.z'' .if \\n(.t<(\\$1) \{\
.rs
'@sp \\n(.tu
.\}
..
.\" a block in the middle, in a keep or by itself
.de (c
.br
.@settle
.@push
.if '\\n(.z'' .@apart
.nr @block-in \\n(.i
.di @block
..
.de )c
.br
.if '\\n(.z'@block' \{\
.di
.@pop
.nr @w \\n(.l-\\n(.i-\\n(dl/2
.if \\n(@w<0 .nr @w 0
.@push
.nf
.ce 0
.in \\n(@wu
.@block
.rm @block
.@pop
.\}
..
.\" ---- keeps that float: to the foot of the page, or to the top of a later one
.de (z
.ie '\\n(.z'' \{\
.@aside
.@set-mode 4 \\$1 \\$2
.@begin-keep
.nr @float\\n[@keep] 1
.\}
.el .(b \\$1 \\$2
..
.de )z
.br
.if \\n[@keep] .ie \\n[@float\\n[@keep]] .@end-float
.el .)b
..
.de (t
.(z \\$1 \\$2
..
.de )t
.)z
..
.de @end-float
.@space \\n(zs
.@end-keep
.nr @height +\\n(zs
.nr @w \\n(.t-\\n[@rows]
.if !\\n(nl .nr @w \\n(.p-\\n(tm-\\n(bm-\\n[@rows]
.ie \\n[@kept]-\\n[@shown]+(\\n[@height]+60>=\\n(@w) \{\
.nr @kept +1
.nr @wait\\n[@kept] \\n[@height]
.rn @keep\\n[@keep] @wait-text\\n[@kept]
.\}
.el .@at-foot
.nr @keep -1
.@back
..
.de @at-foot
.nr @foot +\\n[@height]+80u
.@push
'in 0
'nf
.da @foot-text
.@space \\n(zs
.@keep\\n[@keep]
.da
.rm @keep\\n[@keep]
.@pop
.if \\n(nl .@place
..
.de @print-foot
.nr @foot-in \\n(.i
.nr @foot-fill \\n(.u
'in 0
'nf
.nr @foot 0
.@foot-text
.rm @foot-text
'in \\n[@foot-in]u
.if \\n[@foot-fill] 'fi
..
.\" those that wait, at the top: the first in any case
.de @floats
.nr @floating 1
.nr @force 1
.@next-float
.nr @floating 0
..
.de @next-float
.nr @i \\n[@shown]+1
.nr @w \\n(.t
.if !\\n(nl .nr @w \\n(.p-\\n(tm-\\n(bm
.if \\n[@force] .nr @w \\n[@wait\\n(@i]
.nr @force 0
.if \\n(@w>=\\n[@wait\\n(@i] \{\
.nr @shown \\n(@i
.nr @foot-in \\n(.i
.nr @foot-fill \\n(.u
'in 0
'nf
.if !\\n(nl .@open
.@space \\n(zs
.@wait-text\\n[@shown]
.rm @wait-text\\n[@shown]
'in \\n[@foot-in]u
.if \\n[@foot-fill] 'fi
.if \\n[@kept]>\\n[@shown] .@next-float
.\}
..
.\" ---- notes: the text is set at the next break, or where room is short if that comes first
.de (f
.nr @raw +1
.am @raw-notes )f
.@note \\$1
..
.de )f
.if \\n+[@note-marks]>1 .nr $f +1
.nr @note-marks 0 1
.if '\\n(.z'' .if !\\n[@keep] .if !\\n[@setting] .@note-read
..
.\" ten lines and more are left for each, so that it stands on the page of its mark
.de @note-read
.nr @room \\n[@raw]*120u
.if \\n(nl .@place
.@look
..
.de @look
.if \\n[@raw] .if '\\n(.z'' \{\
.nr @w \\n(.p-\\n(bm-\\n[@noted]-\\n[@foot]-\\n(nl-(400u*\\n[@raw])
.ie \\n(@w<200 .if \\n(nl .@set-aside
.el .it 1 @look
.\}
..
.\" sets them while a line is under way
.de @set-aside
.@aside
.@set
.nr @room 0
.@place
.nr @w \\n[@noted]=0*120u+\\n[@rows]+80u
.if \\n(.t<\\n(@w .if \\n(nl>\\n[@text-top] \{\
.rs
'@sp \\n(.tu
.\}
.@allot
.@back
..
.\" begins a note
.de @note
.br
.ft R
.if \\n(ff>1 .ft \\n(ff
.fi
.ce 0
.in 0
.xl \\n($lu-\\n(fuu
.@space \\n(fs
.if !'\\$1'_' .ti \\n(fiu
..
.\" sets the notes that wait to be set; no line is under way
.de @set
.@push
.@apart
.nr @setting 1
.nr @raw 0
.nr @set-keep \\n[@keep]
.nr @keep 100
.rn @raw-notes @set-notes
.di @new-notes
.@set-notes
.br
.if '\\n(.z'@keep101' .)b
.di
.rm @set-notes
.nr @keep \\n[@set-keep]
.nr @note-height \\n(dn
.nr @setting 0
.@pop
..
.de @set-now
.@set
.nr @room 0
.@place
.@allot
..
.de @set-at-bottom
.@set
.nr @w \\n[@later]
.if \\n(.p-\\n(nl-\\n(bm<(\\n[@noted]+\\n[@note-height]+120u) .nr @w 1
.@store
..
.\" for this page, if two lines have room and none waits, else for the next
.de @allot
.nr @w \\n[@later]
.nr @o \\n(.t
.if !\\n(nl .nr @o \\n(.p-\\n(tm-\\n(bm
.nr @rest \\n[@note-height]
.if \\n[@rest]>80 .nr @rest 80
.if \\n(@o<(\\n[@noted]=0*120u+\\n[@rest]+\\n[@rows]) .nr @w 1
.@store
.@place
..
.de @store
.nr @n-in \\n(.i
.nr @n-fill \\n(.u
'in 0
'nf
.ie \\n(@w \{\
.da @notes-later
.nr @later +\\n[@note-height]
.\}
.el \{\
.da @notes
.nr @noted +\\n[@note-height]
.\}
.@new-notes
.di
'in \\n[@n-in]u
.if \\n[@n-fill] 'fi
.rm @new-notes
..
.de $s
\l'2i'
.br
..
.\" what has no room is for the next page, before the notes that wait
.de @print-notes
.@push
.@apart
'in 0
'nf
.nr @noted 0
.$s
.wh -\\n(fmu-80u @catch
.@notes
.if '\\n(.z'@notes-over' .@end-catch
.ch @catch
.rm @notes
.@pop
..
.de @catch
.di @notes-over
..
.de @end-catch
.nr @over \\n(.d
.if \\n[@later] .@notes-later
.di
.rm @notes-later
.rn @notes-over @notes-later
.nr @later +\\n[@over]
..
.\" ---- delayed text
.de (d
.am @delayed )d
.@space \\n(bs
..
.de )d
.if \\n+[@text-marks]>1 .nr $d +1
.nr @text-marks 0 1
..
.de pd
.br
.@settle
.@delayed
.rm @delayed
.nr $d 1
..
.\" ---- index: an entry is set as it is read, its page and dots come where it is printed
.de (x
.ds @index x
.if \\n(.$ .ds @index \\$1
.@aside
.@push
.@apart
.di @entry
.fi
.ft R
.in \\n(piu
.xl \\n($lu-\\n(xuu-3n
.ti -\\n(piu
.rn in @in
.rn @entry-in in
..
.\" an indent within one is that of its first line too
.de @entry-in
.@in \\$1
.ti \\n(.iu
..
.de )x
.if '\\n(.z'@entry' \{\
.rn in @entry-in
.rn @in in
.br
.nr @w \\n(.i+\\n(.n
.di
.if \\n(dn<80 .nr @w \\n(dl
.nr @entries +1
.nr @entry-end\\n[@entries] \\n(@w
.rn @entry @entry\\n[@entries]
.ds @entry-index\\n[@entries] \\*[@index]
.ds @entry-page\\n[@entries] \\\\n%
.if \\n(.$ .ds @entry-page\\n[@entries] "\\$1
.if !\\n(dn .ds @entry-page\\n[@entries] _
.ds @entry-author\\n[@entries] "\\$2
.@pop
.@enter \\n[@entries]
.@back
.\}
..
.\" one in a keep gets its page where that is printed
.de @enter
.ie '\\n(.z'' .@store-entry \\$1
.el \!.@enter \\$1
..
.de @store-entry
.ds @page "\\*[@entry-page\\$1]
.@push
.da @index-\\*[@entry-index\\$1]
'nf
'in 0
.@space \\n(xs
.@entry\\$1
.if !'\\*[@page]'_' \{\
\!.ds @author "\\*[@entry-author\\$1]
\!.@dots \\n[@entry-end\\$1] "\\*[@page]"
.\}
.da
.@pop
.rm @entry\\$1
.rm @entry-index\\$1
.rm @entry-page\\$1
.rm @entry-author\\$1
.rr @entry-end\\$1
..
.de @dots
.rs
'@sp -1
.nr @w \w\a\\*[@author]\\$2\a
.nr @o \\n($l-\\n(.i-\\n(@w
.if \\n(@o<(\\$1+1n) .nr @o \\$1+1n
.nr @dots \\n($l-\\n(.i-\\n(xu-\\$1-1n
.if \\n[@dots]+\\$1+1n>\\n(@o .nr @dots \\n(@o-\\$1-1n
.if \\n[@dots]<0 .nr @dots 0
\h'\\$1u'\ \l'\\n[@dots]u.'\h'|\\n(@ou'\\*[@author]\\$2
..
.\" one that is wider than a column stands below all of them
.de xp
.br
.@close
.@settle
.ds @index x
.if \\n(.$ .ds @index \\$1
.if \\n($m>1 .@measure-index
.@push
.@apart
.nf
.@index-\\*[@index]
.rm @index-\\*[@index]
.@pop
..
.de @measure-index
.@push
.nf
.di @measure
.@index-\\*[@index]
.br
.di
.rm @measure
.@pop
.if \\n(dl>\\n($l .1c
..
.\" ---- chapters
.de ++
.nr @kind 0
.nr @renumber 0
.if '\\$1'C' .nr @kind 1
.if '\\$1'RC' .nr @kind 1
.if '\\$1'A' .nr @kind 2
.if '\\$1'RA' .nr @kind 2
.if '\\$1'P' .nr @kind 3
.if '\\$1'B' .nr @kind 4
.if '\\$1'AB' .nr @kind 5
.if '\\$1'RC' .nr @renumber 1
.if '\\$1'RA' .nr @renumber 1
.ep
.nr ch 0 1
.nr @o 0
.if \\n[@kind]=3:(\\n[@kind]=5) .nr @o 1
.if \\n(_M=3 .if !\\n[@kind]=3 .nr @o 1
.if \\n(@o .pn 1
.if \\n[@kind]=1 .af ch 1
.if \\n[@kind]=2 .af ch A
.ie \\n[@kind]=3 .af % i
.el .af % 1
.if \\n(.$>1 \{\
.ds @next-header-even "\\$2
.ds @next-header-odd "\\$2
.@first-texts
.\}
.nr _M \\n[@kind]
..
.de +c
.br
.@close
.ep
.nr @chapter-next 1
.nr $f 1
.nr @note-marks 0 1
.if \\n[@renumber] .pn 1
.bp
.in \\n($iu
.@open
.ds @heading "\\$1
.ie \\n(.$ .$c "\\\\*[@heading]"
.el .sp 3
..
.de $c
.br
.ft B
.ce 1000
.if \\n(_M<3 .nr ch +1
.ie \\n(_M=1 CHAPTER\ \ \\n(ch
.el .if \\n(_M=2 APPENDIX\ \ \\n(ch
.if \w\a\\$1\a \{\
.sp 2
\\$1
.\}
.if \\n(_M<3:\w\a\\$1\a .sp 3
.ce 0
.ft R
.ie \\n(_M=1 .$C Chapter \\n(ch "\\\\*[@heading]"
.el .if \\n(_M=2 .$C Appendix \\n(ch "\\\\*[@heading]"
..
.de $C
..
.\" of other editions: a thesis, a paper for the ACM, local macros
.de th
..
.de ac
.ds @next-footer-even "'\\$1''%'
.ds @next-footer-odd "'\\$1''%'
.@first-texts
..
.de lo
..
.\" ---- tables; the head of one with a head stands again on each page
.de TS
.br
.@settle
.@space \\n(bs
.@push
.@apart
.nr @in-table 1
.ds @table-in \\n(.z
.nf
.nr *box 0
.if '\\$1'H' \{\
.nr @in-head 1
.di @head-text
.\}
..
.de TH
.if \\n[@in-head] .if '\\n(.z'@head-text' .@end-head
..
.de @end-head
.br
.di
.nr @in-head 0
.nr @head-height \\n(dn
.@need \\n[@head-height]+40u
.nr @head-in \\n(.i
.in 0
.rn ne @ne
.@head-text
.rn @ne ne
.in \\n[@head-in]u
.if '\\n(.z'' .if \\n[@head-height]<(\\n(.p-\\n(tm-\\n(bm-80u) .nr @head \\n[@head-height]
..
.de @print-head
.nr @head-in \\n(.i
'in 0
.rn ne @ne
.@head-text
.rn @ne ne
'in \\n[@head-in]u
..
.de TE
.TH
.br
.if \\n[@in-table] .@pop
.nr @in-table 0
.nr @flat 0
.nr @head 0
.@settle
.nr @w \\n(bs
.if \\n[*box] .nr @w -1v
.nr *box 0
.if \\n(@w>0 .@space \\n(@w
.re
..
.de T&
..
.\" ---- equations and pictures: what stands between, set apart
.de EQ
.if \\n[@in-equation] .EN
.if !'\\n(.z'@equation' \{\
.br
.@settle
.ds @equation-title
.nr @equation-mode 1
.@equation-kind "\\$1"
.ie \\n(@w .ds @equation-title "\\$2
.el .ds @equation-title "\\$1
.@push
.@apart
.nf
.in 0
.di @equation
.\}
.nr @in-equation 1
..
.de @equation-kind
.nr @w 0
.if '\\$1'C' .nr @w 1
.if '\\$1'L' .nr @w 2
.if '\\$1'I' .nr @w 3
.if '\\$1'M' .nr @w 4
.if \\n(@w .nr @equation-mode \\n(@w
..
.de EN
.nr @in-equation 0
.if '\\n(.z'@equation' \{\
.br
.ie '\\$1'C' .@space \\n(es
.el \{\
.di
.@pop
.nr @height \\n(dn
.nr @equation-width \\n(dl
.if \\n(dn:\w\a\\*[@equation-title]\a .@put-equation
.\}
.\}
..
.de @put-equation
.@space \\n(es
.@need \\n[@height]+80u
.@push
.@apart
.nf
.nr @equation-at 0
.if \\n[@equation-mode]=1 .nr @equation-at (\\n(.l+\\n($i-\\n[@equation-width])/2
.if \\n[@equation-mode]=2 .nr @equation-at \\n($i
.if \\n[@equation-mode]=3 .nr @equation-at \\n($i+\\n(bi
.if \\n[@equation-at]<0 .nr @equation-at 0
.in \\n[@equation-at]u
.@equation
.rm @equation
.in 0
.nr @w \\n(.l-\w\a\\*[@equation-title]\a
.if \w\a\\*[@equation-title]\a \{\
.rs
.if '\\n(.z'' .if \\n[@height] .if \\n[@equation-at]+\\n[@equation-width]+1n<=\\n(@w '@sp -1
\&\h'\\n(@wu'\\*[@equation-title]
.\}
.@pop
.@space \\n(es
..
.de PS
.br
.@settle
.@push
.nf
..
.de PE
.br
.if \\n[@depth] .@pop
.@space 1v
..
.de PF
.PE
..
.de GS
.PS
..
.de GE
.PE
..
.de GF
.PE
..
.de IS
.PS
..
.de IE
.PE
..
.de IF
.PE
..
.\" ---- fonts: a word, and what stands right after it; of more words all; without words from here on
.de sz
..
.de r
.if \\n(.$>2 \{\
\*[@join].\}
.ie \\n(.$>2 \&\fR\\*[@joined]\fP
.el .ie \\n(.$ \&\fR\\$1\fP\\$2
.el .ft R
..
.de i
.if \\n(.$>2 \{\
\*[@join].\}
.ie \\n(.$>2 \&\fI\\*[@joined]\fP
.el .ie \\n(.$ \&\fI\\$1\fP\\$2
.el .ft I
..
.de b
.if \\n(.$>2 \{\
\*[@join].\}
.ie \\n(.$>2 \&\fB\\*[@joined]\fP
.el .ie \\n(.$ \&\fB\\$1\fP\\$2
.el .ft B
..
.de rb
.if \\n(.$>2 \{\
\*[@join].\}
.ie \\n(.$>2 \&\fB\\*[@joined]\fP
.el .ie \\n(.$ \&\fB\\$1\fP\\$2
.el .ft B
..
.de bi
.if \\n(.$>2 \{\
\*[@join].\}
.ie \\n(.$>2 \&\fI\\*[@joined]\fP
.el .ie \\n(.$ \&\fI\\$1\fP\\$2
.el .ft I
..
.de u
.if \\n(.$>2 \{\
\*[@join].\}
.ie \\n(.$>2 \&\fI\\*[@joined]\fP
.el .if \\n(.$ \&\fI\\$1\fP\\$2
..
.de q
.if \\n(.$>2 \{\
\*[@join].\}
.ie \\n(.$>2 \&\\*(lq\\*[@joined]\\*(rq
.el .if \\n(.$ \&\\*(lq\\$1\\*(rq\\$2
..
.de bx
.if \\n(.$>2 \{\
\*[@join].\}
.ie \\n(.$>2 \&[\\*[@joined]]
.el .if \\n(.$ \&[\\$1]\\$2
..
.de sm
.if \\n(.$>2 \{\
\*[@join].\}
.ie \\n(.$>2 \&\\*[@joined]
.el .if \\n(.$ \&\\$1\\$2
..
.\" ---- references, as refer hands them on: fields [A, [T .. , of which @field adds each that is
.\" there, a comma or a stop before it, and what closes it after the next one
.ds [. " [
.ds .] ]
.ds <. .
.ds <, ,
.ds >.
.ds >,
.de ]-
.nr [A 0
.nr [O 0
.nr [P 0
.nr [T 0
..
.de @field
.ds @text "\\*([\\$1
.if !\a\\*[@text]\a\a \{\
.if !\a\\*[@reference]\a\a \{\
.if !\\n[@stopped] .as @reference "\\$2
.as @reference "\\*[@closing]
.if !'\\$1'N' .as @reference " \&
.\}
.as @reference "\\$3\\*[@text]\\$4
.ds @closing "\\$5
.nr @stopped 0
.if \\n(.$>5 .nr @stopped \\$6
.rm [\\$1
.\}
..
.\" the end of one, and its kind: 0 and 2 have the title in italics
.de ][
.ds @reference
.ds @closing
.nr @stopped 0
.@field Q ,
.@field A , "" "" "" \\n([A
.ie (0\\$1=0):(0\\$1=2) .@field T , "\fI" "" "\fR" \\n([T
.el .@field T , "\\*(lq" "" "\\*(rq" \\n([T
.@field J , "\fI" "" "\fR"
.@field B "" "in \fI" "" "\fR"
.@field E , "ed. "
.@field R ,
.@field G "" "(" ")"
.@field S ,
.@field V "" "\fB" "\fR"
.ie 0\\$1=4 .@field N "" "\ "
.el .@field N "" "(" ")"
.ie \\n([P .@field P , "pp.\ "
.el .@field P , "p.\ "
.@field I ,
.@field C ,
.@field D "" "(" ")"
.@field O . "" "" "" \\n([O
.if !\\n[@stopped] .as @reference .
.as @reference "\\*[@closing]
.ie \\n[@listing] .@list-reference
.el .@note-reference
.ds [F
..
.de []
.][ \\$1
..
.de @list-reference
.ie \a\\*([F\a\a .ip \ \&
.el .ip "\\*([F."
\&\\*[@reference]
..
.de @note-reference
.(f _
\\*([F.\ \ \\*[@reference]
.)f
..
.\" around those that stand together
.de ]<
.nr @listing 1
.uh References
.lp
..
.de ]>
.nr @listing 0
.br
.in \\n($iu
..
.\" ---- strings
.ds * [\\n($f]\\h'\\n+[@note-marks]u*0u'
.ds # [\\n($d]\\h'\\n+[@text-marks]u*0u'
.ds { \&
.ds } \&
.ds [ \&
.ds ] \&
.ds < \&
.ds > \&
.ds - \(em
.ds lq \(dq
.ds rq \(dq
.ds '
.ds `
.ds :
.ds ^
.ds ~
.ds ,
.ds v
.ds o
.ds qe there exists
.ds qa for all
.ds dw
.ds mo
.ds td
.\" ---- the end: what is open is closed, what waits gets a page
.de @end
.br
.@close
.@settle
.@last
..
.de @close
.if !'\\n(.z'' \{\
.ie '\\n(.z'@equation' .EN
.el .ie '\\n(.z'@block' .)c
.el .ie '\\n(.z'@head-text' .TH
.el .ie '\\n(.z'@entry' .)x
.el .ie \\n[@keep] .)b
.el .di
.@close
.\}
..
.de @last
.nr $c \\n($m
.if \\n(nl \{\
.rs
.@bp
.\}
.if \\n[@later]+\\n[@kept]-\\n[@shown] .@last-page
..
.de @last-page
.if !\\n(nl .@open
.@last
..
.\" ---- the beginning
.nr @font 1
.nr @before-font 1
.nr @note-marks 0 1
.nr @text-marks 0 1
.nr $f 1 1
.nr $d 1 1
.nr $p 0 1
.nr $m 1
.nr $c 1
.nr $s 4n
.nr _M 1
.nr ch 0 1
.nr hm 4v
.nr tm 7v
.nr bm 6v
.nr fm 3v
.nr tf 3
.nr tp 10
.nr pp 10
.nr pf 1
.nr sf 3
.nr sp 10
.nr ff 1
.nr fp 8
.nr qp 0-1
.nr bi 4n
.nr pi 5n
.nr qi 4n
.nr ii 5n
.nr ss 1v
.nr ps 1v
.nr bs 1v
.nr qs 1v
.nr zs 1v
.nr es 1v
.nr xs 0.2v
.nr fs 0.2v
.nr xu 0.5i
.nr fi 0.3i
.nr $v 120
.nr $V 120
.if \nL .ll \nLn
.if !\nL .ll 6i
.rn @set-offset po
.nr @offset \n(.o
.re
.wh 0 @header
.em @end
.\" end of tmac.e
