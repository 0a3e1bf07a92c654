"""Hints: what the bytes show about a refusal, and what to do. A hint never changes an answer."""

import calendar
import re
from codecs import BOM_UTF8, BOM_UTF16_BE, BOM_UTF16_LE, getincrementaldecoder
from itertools import islice
from typing import Dict, Iterable, Iterator, List, NamedTuple, Optional, Tuple

from .calls import LINE, STANDING
from .refusal import LANGUAGES, OVERFULL, SHEET, Refusal
from .tables import FIELDS, Field

#: At most so many hints are given, the likeliest first.
MOST = 3

#: The models of references that are handled.
MODELS = "HR00 HR01 HR02 HR03 HR04 HR06 HR07 HR08 HR09 HR10 HR11 HR16 HR17 HR35 HR69 HR99".split()

#: The codes of kinds of personal income: 004's list.
CODES = (
    "100 110 120 130 140 150 160 170 180 190 191 200 210 220 230 240 250 260 270 280 290 300 310 320 330 340 350 360 361 "
    "370 380 390 400 410 420 430 431 432 433 440 441 450 451 500 510 600 610 620 621 630 640 650 660 690 699"
).split()

#: What each hint says, in English and Croatian.
HINTS: Dict[str, Tuple[str, str]] = {
    # The whole of what was read.
    "empty": (
        "There is nothing to read: not one byte came in. Check the name of the file, or the reader.",
        "Nema ničega za čitanje: nije stigao nijedan znak. Provjerite naziv datoteke ili čitač."),
    "slip_mark": (
        "The slip begins with a byte order mark (EF BB BF), which does not belong to it. Have UTF-8 sent without the "
        "mark, or let `scanned` (`slip --scan`) take it off.",
        "Uplatnica počinje oznakom redoslijeda bajtova (BOM, EF BB BF), koja joj ne pripada. Podesite slanje UTF-8 bez "
        "te oznake ili je uklonite pozivom `scanned` (`slip --scan`)."),
    "wage_mark": (
        "The file begins with a byte order mark (EF BB BF), so it was saved as UTF-8. Save it as WIN-1250 (in Windows: "
        "ANSI), which has no such mark.",
        "Datoteka počinje oznakom redoslijeda bajtova (BOM, EF BB BF), dakle spremljena je kao UTF-8. Spremite je u "
        "kodnoj stranici WIN-1250 (u Windowsima: ANSI), koja nema takvu oznaku."),
    "utf16": (
        "The bytes begin with {mark}, the byte order mark of UTF-16. Save the text as {due}.",
        "Podaci počinju znakovima {mark}, oznakom redoslijeda bajtova za UTF-16. Spremite tekst u kodnoj stranici "
        "{due}."),
    "xml": (
        "This is an XML file (as of SEPA), not a wage file of lines 300 to 399. Choose the other format in the program "
        "that wrote it.",
        "Ovo je XML datoteka (kao za SEPA-u), a ne datoteka sa slogovima 300 do 399. U programu koji ju je izradio "
        "odaberite drugi format."),
    "aim": (
        "The slip begins with `{prefix}`, an identifier (AIM) that the barcode reader adds. Switch it off in the "
        "reader's settings, or let `scanned` (`slip --scan`) take it off.",
        "Uplatnica počinje oznakom `{prefix}` (AIM), koju dodaje čitač barkoda. Isključite je u postavkama čitača ili "
        "je uklonite pozivom `scanned` (`slip --scan`)."),
    "prefix": (
        "Something stands before `HRVHUB30`, with which a slip begins (bytes: {count}). If the reader adds a prefix, "
        "switch it off in its settings.",
        "Ispred oznake `HRVHUB30`, kojom uplatnica počinje, još nešto stoji (znakova: {count}). Ako čitač dodaje "
        "prefiks, isključite ga u postavkama čitača."),
    "several": (
        "`HRVHUB30` stands here more than once: these are several slips, one behind the other. Read them one by one.",
        "Oznaka `HRVHUB30` pojavljuje se više puta: ovo je više uplatnica, jedna iza druge. Čitajte ih jednu po "
        "jednu."),
    # Characters.
    "twice": (
        "The letter {letter} was encoded as UTF-8 twice. Take the reader's bytes, not the text made of them, or let "
        "`scanned` (`slip --scan`) undo it.",
        "Slovo {letter} dvaput je kodirano u UTF-8. Uzmite bajtove iz čitača, a ne tekst koji je od njih nastao, ili "
        "to ispravite pozivom `scanned` (`slip --scan`)."),
    "twice_1250": (
        "The letter {letter} in UTF-8 was taken for WIN-1250 and encoded again. Take the reader's bytes, not the text "
        "made of them.",
        "Slovo {letter} u UTF-8 pročitano je kao WIN-1250 i ponovno kodirano. Uzmite bajtove iz čitača, a ne tekst "
        "koji je od njih nastao."),
    "win1250": (
        "The byte at position {position} is the letter {letter} in WIN-1250; a slip is UTF-8. Save or send the slip as "
        "UTF-8.",
        "Znak na poziciji {position} slovo je {letter} u kodnoj stranici WIN-1250, a uplatnica mora biti u UTF-8. "
        "Spremite je ili pošaljite kao UTF-8."),
    "utf8": (
        "The file holds UTF-8 ({letter} as more than one byte); a wage file is WIN-1250, one byte to a character. Save "
        "it as WIN-1250 (cp1250; in Windows: ANSI).",
        "Datoteka sadrži UTF-8 ({letter} zauzima više od jednog mjesta), a mora biti u kodnoj stranici WIN-1250, gdje "
        "svaki znak zauzima jedno mjesto. Spremite je kao WIN-1250 (cp1250; u Windowsima: ANSI)."),
    "tab": (
        "Character {at} of the content is a tab (09), which is not permitted. Write a blank in its place, or leave it "
        "out.",
        "{at}. znak podatka je tabulator (09), koji nije dozvoljen. Umjesto njega upišite prazninu ili ga izostavite."),
    "text": (
        "A slip's text has digits, blanks, the letters A to Z, Č, Ć, Đ, Š and Ž, capital or small, and `, . : - + ? ' / ( "
        ")`. Write another character in its place, or leave it out.",
        "Tekst uplatnice ima znamenke, praznine, slova A do Z, Č, Ć, Đ, Š i Ž, velika ili mala, te znakove `, . : - + ? ' "
        "/ ( )`. Umjesto ovog znaka upišite neki od njih ili ga izostavite."),
    # Line ends of a slip.
    "slip_ends": (
        "Fields end in {seen} here; in a slip they end in LF alone. Take the reader's bytes as they are, or let "
        "`scanned` (`slip --scan`) mend the line ends.",
        "Polja ovdje završavaju s {seen}, a u uplatnici završavaju samo graničnikom LF. Uzmite bajtove iz čitača kakvi "
        "jesu ili krajeve redaka ispravite pozivom `scanned` (`slip --scan`)."),
    "nul": (
        "NUL bytes (00) stand at the end, added by some program. Cut them off, or let `scanned` (`slip --scan`) do it.",
        "Na kraju stoje znakovi NUL (00), koje je dodao neki program. Uklonite ih sami ili pozivom `scanned` (`slip "
        "--scan`)."),
    "feed_missing": (
        "There are thirteen line feeds, and none at the end: the last one was lost. Add it, or let `scanned` (`slip "
        "--scan`) do it.",
        "Graničnika LF ima trinaest, a na kraju ga nema: zadnji je izgubljen. Dodajte ga sami ili pozivom `scanned` "
        "(`slip --scan`)."),
    "feed_doubled": (
        "The number of line feeds is {count}, not fourteen, and the surplus is at the very end. Take it off, or let "
        "`scanned` (`slip --scan`) do it.",
        "Graničnika LF ima {count} umjesto četrnaest, a višak je na samom kraju. Uklonite ga sami ili pozivom "
        "`scanned` (`slip --scan`)."),
    "feeds_few": (
        "The number of line feeds is {count}, not fourteen: fields are missing. An empty field has its LF too; write all "
        "fourteen.",
        "Graničnika LF ima {count} umjesto četrnaest: nedostaju polja. I prazno polje ima svoj graničnik LF; upišite "
        "svih četrnaest."),
    "feeds_many": (
        "The number of line feeds is {count}, not fourteen: one stands inside a field, or there are too many fields. "
        "Take out the surplus.",
        "Graničnika LF ima {count} umjesto četrnaest: neki stoji unutar polja ili polja ima previše. Uklonite višak."),
    "feed_not_last": (
        "Something stands behind the fourteenth line feed, which must be the last byte. Cut it off.",
        "Iza četrnaestog graničnika LF, koji mora biti zadnji znak, još nešto stoji. Uklonite to."),
    # Lines of a wage file.
    "wage_ends": (
        "The line ends in {seen} alone; each line of a wage file ends in CR LF. Save the file with the line ends of "
        "Windows.",
        "Slog završava samo s {seen}, a svaki slog mora završiti sekvencom CR LF. Spremite datoteku s krajevima redaka "
        "kao u Windowsima."),
    "short": (
        "The line end comes after {length} bytes, too early by {count}: 1,000 are due. Look for a field that is too "
        "narrow; the type stands at positions 998 to 1000.",
        "Kraj retka dolazi nakon pozicije {length}, prerano za {count}: slog ima 1000 znakova. Potražite prekratko "
        "polje; tip sloga stoji na pozicijama 998 do 1000."),
    "long": (
        "The line end comes after {length} bytes, too late by {count}: 1,000 are due. Look for a field that is too "
        "wide; the type stands at positions 998 to 1000.",
        "Kraj retka dolazi nakon pozicije {length}, prekasno za {count}: slog ima 1000 znakova. Potražite predugo "
        "polje; tip sloga stoji na pozicijama 998 do 1000."),
    "no_end": (
        "There is no line end in these 1,002 bytes: the line is too long, or the file has no lines of 1,000 bytes and "
        "CR LF. Have the program write the file again.",
        "U ova 1002 znaka nema kraja retka: slog je predug ili datoteka nema slogove od 1000 znakova i CR LF. Ponovno "
        "izradite datoteku u programu."),
    "last_end": (
        "The last line has its 1,000 bytes, but no CR LF. Add CR LF at the end of the file.",
        "Zadnji slog ima svojih 1000 znakova, ali ne i CR LF. Dodajte CR LF na kraj datoteke."),
    "cut": (
        "The file breaks off after {length} bytes of this line; 1,000 and CR LF are due. Save or copy the file again.",
        "Datoteka se prekida nakon pozicije {length} ovog sloga; slog ima 1000 znakova i CR LF. Ponovno spremite ili "
        "kopirajte datoteku."),
    "empty_last": (
        "Behind the last line stands an empty one; the file ends with the CR LF of its 399 line. Delete what follows "
        "it.",
        "Iza zadnjeg sloga stoji prazan redak, a datoteka mora završiti sekvencom CR LF sloga 399. Obrišite što "
        "slijedi iza nje."),
    "empty_line": (
        "An empty line stands here; a wage file has none. Delete it.",
        "Ovdje stoji prazan redak, a u datoteci ih ne smije biti. Obrišite ga."),
    "second_label": (
        "A 300 line stands only once, as the first; here it is line {line}. If two files were put together, submit "
        "them one by one.",
        "Slog 300 stoji samo jednom, kao prvi; ovdje je {line}. po redu. Ako su spojene dvije datoteke, podnesite ih "
        "jednu po jednu."),
    "sequence": (
        "Line {line} is a {record} line. Put the lines in order: one 300; groups of one 301 and at least one 309; one "
        "399, and nothing after it.",
        "Slog {line} ovdje je tipa {record}. Poredajte slogove: jedan 300; grupe od jednog 301 i najmanje jednog 309; "
        "jedan 399, a iza njega ništa."),
    "type": (
        "The type of a line stands at positions 998 to 1000. Correct it; where something else stands there, look for a "
        "field that is too narrow or too wide.",
        "Tip sloga stoji na pozicijama 998 do 1000. Ispravite ga; ako ondje stoji nešto drugo, potražite prekratko ili "
        "predugo polje."),
    "unfinished": (
        "The file was cut off, or written without its 399 line. Have the program write it again.",
        "Datoteka je prekinuta ili je izrađena bez sloga 399. Ponovno je izradite u programu."),
    # Contents.
    "lookalike": (
        "Character {at} of the content is the letter {seen}, where a digit is due. Write {meant}.",
        "{at}. znak podatka slovo je {seen}, a ondje treba biti znamenka. Upišite {meant}."),
    "lower": (
        "There are lower case letters in it. An IBAN and a model are written in capitals: write HR.",
        "U podatku su mala slova. IBAN i model pišu se velikim slovima: upišite HR."),
    "blank": (
        "Character {at} of the content is a blank. Write it without blanks.",
        "{at}. znak podatka je praznina. Upišite podatak bez praznina."),
    "zeros": (
        "Character {at} of the content is a blank. A numeric field is filled with leading zeros, not blanks.",
        "{at}. znak podatka je praznina. Brojčano polje popunjava se vodećim nulama, a ne prazninama."),
    "dash": (
        "Character {at} of the content is a long dash. Write a hyphen (-).",
        "{at}. znak podatka dulja je crta. Upišite crticu (-)."),
    "point": (
        "The amount has a comma or a point. Write it in cents, with leading zeros: for 123.55 euro, 12355.",
        "Iznos sadrži zarez ili točku. Upišite ga u centima, s vodećim nulama: za 123,55 eura 12355."),
    "lipa_point": (
        "The amount has a comma or a point. Write it in lipa, with leading zeros: for 123.55 kuna, 12355.",
        "Iznos sadrži zarez ili točku. Upišite ga u lipama, s vodećim nulama: za 123,55 kuna 12355."),
    "padded": (
        "The amount has {length} digits, and {width} are due. Write it in cents with leading zeros.",
        "Duljina iznosa je {length}, a mora biti {width}. Upišite iznos u centima s vodećim nulama."),
    "lipa_padded": (
        "The amount has {length} digits, and {width} are due. Write it in lipa with leading zeros.",
        "Duljina iznosa je {length}, a mora biti {width}. Upišite iznos u lipama s vodećim nulama."),
    "too_long": (
        "The content is {length} characters long, and at most {width} are permitted. Shorten it.",
        "Duljina podatka je {length}, a dozvoljeno je najviše {width}. Skratite ga."),
    "fixed": (
        "The content is {length} characters long, and exactly {width} are due. Look for what is missing or too much.",
        "Duljina podatka je {length}, a mora biti točno {width}. Provjerite što nedostaje ili je suvišno."),
    "iban_form": (
        "An IBAN is HR and nineteen digits. Compare it with the paper.",
        "IBAN se sastoji od HR i devetnaest znamenki. Usporedite ga s izvornikom."),
    "account_form": (
        "It begins with a digit, so it is an account: seven digits, a hyphen and ten digits. Compare it with the paper.",
        "Podatak počinje znamenkom, dakle to je račun: sedam znamenki, crtica i deset znamenki. Usporedite ga s "
        "izvornikom."),
    "digits": (
        "Digits alone are permitted, in a reference hyphens too. Compare it with the paper.",
        "Dozvoljene su samo znamenke, a u pozivu na broj i crtice. Usporedite podatak s izvornikom."),
    "foreign": (
        "The IBAN begins with {country}, and only accounts of Croatia (HR) are handled. For an account abroad use "
        "another kind of order.",
        "IBAN počinje s {country}, a podržani su samo hrvatski računi (HR). Za račun u inozemstvu upotrijebite drugu "
        "vrstu naloga."),
    "kuna": (
        "The currency is the kuna (HRK), which the euro replaced on 1 January 2023. Ask for a new order in euro (EUR).",
        "Valuta je kuna (HRK), koju je 1. siječnja 2023. zamijenio euro. Zatražite novi nalog u eurima (EUR)."),
    "kuna_slip": (
        "This is a kuna slip (HRK), from before 2023, and is not to be paid. For the books it is read by `ledger`.",
        "Ovo je uplatnica u kunama (HRK), iz vremena prije 2023., i po njoj se ne plaća. Za poslovne knjige čita je "
        "`ledger`."),
    # Sheets.
    "sheet_mark": (
        "The sheet begins with a byte order mark (EF BB BF), which does not belong to it. Save it as UTF-8 without the "
        "mark.",
        "Predložak počinje oznakom redoslijeda bajtova (BOM, EF BB BF), koja mu ne pripada. Spremite ga kao UTF-8 bez te "
        "oznake."),
    "sheet_ends": (
        "The line ends in {seen}; in a sheet each line ends in LF alone. Save the sheet with the line ends of Unix (LF).",
        "Redak ovdje završava s {seen}, a u predlošku svaki redak završava samo graničnikom LF. Spremite predložak s "
        "krajevima redaka kao u Unixu (LF)."),
    "sheet_last": (
        "The last line has no LF at its end. Add a line end behind it.",
        "Zadnji redak nema graničnik LF na kraju. Dodajte kraj retka iza njega."),
    "sheet_empty": (
        "An empty line stands here; a sheet has none. Delete it.",
        "Ovdje stoji prazan redak, a u predlošku ih ne smije biti. Obrišite ga."),
    "sheet_equals": (
        "There is no `=` in the line. Write the field's number, `=` and the text.",
        "U retku nema znaka `=`. Upišite broj polja, `=` i tekst."),
    "sheet_bare": (
        "There is no number before the `=`. Write the field's number there.",
        "Ispred znaka `=` nema broja. Upišite ondje broj polja."),
    "sheet_number": (
        "Before the `=` stands `{seen}`, where digits alone are due. Write the field's number there, without blanks.",
        "Ispred znaka `=` stoji `{seen}`, a ondje smiju biti samo znamenke. Upišite ondje broj polja, bez praznina."),
    "sheet_zero": (
        "The number is written with a leading zero. Write {number}.",
        "Broj je upisan s vodećom nulom. Upišite {number}."),
    "sheet_field": (
        "Field {number} has no standing text. Correct the number (4 to 9, 13 or 14), or delete the line.",
        "Polje {number} nema stalni tekst. Ispravite broj (4 do 9, 13 ili 14) ili obrišite redak."),
    "sheet_twice": (
        "Field {number} stands in line {line} already. Keep one of the two lines.",
        "Polje {number} već stoji u retku {line}. Ostavite samo jedan od ta dva retka."),
    "sheet_order": (
        "Field {number} stands behind field {before}. Put the lines in ascending order of their numbers.",
        "Polje {number} stoji iza polja {before}. Poredajte retke po brojevima polja, od manjeg prema većem."),
    "sheet_second": (
        "A second `=` stands in the text, where it is not permitted. Write another character in its place, or leave it out.",
        "U tekstu stoji još jedan znak `=`, koji ondje nije dozvoljen. Umjesto njega upišite drugi znak ili ga izostavite."),
    "sheet_purpose": (
        "Field 13 is four letters A to Z, or empty; here it is `{seen}`. Write the code in capitals, or leave it empty.",
        "Polje 13 ima četiri slova od A do Z ili je prazno; ovdje je `{seen}`. Upišite šifru velikim slovima ili polje "
        "ostavite praznim."),
    "sheet_1250": (
        "The letter {letter} stands here in WIN-1250; a sheet is UTF-8. Save the sheet as UTF-8.",
        "Slovo {letter} ovdje je u kodnoj stranici WIN-1250, a predložak mora biti u UTF-8. Spremite ga kao UTF-8."),
    "sheet_character": (
        "Character {at} of the text is `{seen}`, which is not permitted. Write another one in its place, or leave it out.",
        "{at}. znak teksta je `{seen}`, koji nije dozvoljen. Umjesto njega upišite drugi znak ili ga izostavite."),
    # Running totals.
    "overfull": (
        "The line is right: it is the running total, carried over from the files before, that has no room for it. Begin the "
        "running total of this file with zeros.",
        "Slog je ispravan: u tekućem zbroju, prenesenom iz prijašnjih datoteka, nema mjesta za njega. Tekući zbroj ove "
        "datoteke započnite od nule."),
    # Checks.
    "iban": (
        "It is the IBAN that fails its check: probably one digit was misread or two were exchanged. Compare it with "
        "the paper.",
        "Kontrolu ne prolazi IBAN: vjerojatno je jedna znamenka krivo pročitana ili su dvije zamijenjene. Usporedite "
        "ga s izvornikom."),
    "oib": (
        "It is the OIB that fails its check: probably one digit was misread or two were exchanged. Compare it with the "
        "paper.",
        "Kontrolu ne prolazi OIB: vjerojatno je jedna znamenka krivo pročitana ili su dvije zamijenjene. Usporedite ga "
        "s izvornikom."),
    "digit": (
        "Probably one digit was misread or two were exchanged. Compare the number with the paper, digit by digit.",
        "Vjerojatno je jedna znamenka krivo pročitana ili su dvije zamijenjene. Usporedite broj s izvornikom, znamenku "
        "po znamenku."),
    "marks": (
        "{count} digits are marked `?`, and at most four can be filled in. Read more of them from the paper.",
        "Oznakom `?` označeno je {count} znamenki, a mogu se dopuniti najviše četiri. Pročitajte ih još s izvornika."),
    # Models and references.
    "model": (
        "A model is HR and two digits. Write it as in HR01.",
        "Model se sastoji od HR i dvije znamenke. Upišite ga tako, na primjer HR01."),
    "models": (
        "The models handled are {models}; {model} is not among them. Compare it with the paper.",
        "Podržani su modeli {models}; {model} nije među njima. Usporedite ga s izvornikom."),
    "no_model": (
        "The reference has no model. Write its model, or leave the reference blank.",
        "Poziv na broj nema modela. Upišite model ili poziv na broj ostavite praznim."),
    "parts": (
        "A reference has one to three parts of one to twelve digits each, joined by hyphens; here the lengths are "
        "{seen}. Correct the parts.",
        "Poziv na broj ima jedan do tri podatka, svaki od jedne do dvanaest znamenki, odvojena crticama; ovdje su "
        "duljine {seen}. Ispravite podatke."),
    "parts_HR16": (
        "HR16 asks for three parts of 5, 4 and 8 digits, joined by hyphens; here the lengths are {seen}. Correct the "
        "parts.",
        "HR16 traži tri podatka od 5, 4 i 8 znamenki, odvojena crticama; ovdje su duljine {seen}. Ispravite podatke."),
    "parts_HR35": (
        "HR35 asks for two parts, of at most 10 and of exactly 11 digits, joined by a hyphen; here the lengths are "
        "{seen}. Correct the parts.",
        "HR35 traži dva podatka, od najviše 10 i od točno 11 znamenki, odvojena crticom; ovdje su duljine {seen}. "
        "Ispravite podatke."),
    "parts_HR69": (
        "HR69 asks for two or three parts, of 5, 11 and 3 digits, joined by hyphens; here the lengths are {seen}. "
        "Correct the parts.",
        "HR69 traži dva ili tri podatka, od 5, 11 i 3 znamenke, odvojena crticama; ovdje su duljine {seen}. Ispravite "
        "podatke."),
    "first_HR69": (
        "HR69 with three parts is for personal income, and asks for 40002 as the first part; here it is {seen}. Write "
        "40002, or leave the third part out if this is no personal income.",
        "HR69 s tri podatka je za isplatu osobnih primanja i traži 40002 kao prvi podatak; ovdje je {seen}. Upišite 40002 "
        "ili izostavite treći podatak ako ovo nije osobno primanje."),
    "code_HR69": (
        "HR69 asks for a code of the kinds of personal income as the third part; here it is {seen}. Compare it with the "
        "paper.",
        "HR69 traži šifru vrste osobnog primanja kao treći podatak; ovdje je {seen}. Usporedite podatak s izvornikom."),
    "near_HR69": (
        "If one digit was misread or two were exchanged, the code may be, for example, {codes}. Write the right one.",
        "Ako je jedna znamenka krivo pročitana ili su dvije zamijenjene, šifra može biti, na primjer, {codes}. Upišite "
        "pravu."),
    "parts_HR99": (
        "HR99 asks for an empty reference. Leave the reference out, or write its right model.",
        "HR99 traži prazan poziv na broj. Izostavite poziv na broj ili upišite njegov pravi model."),
    # Days.
    "day": (
        "The day of submission given, {date}, is not a date, so nothing of the file was judged. Give it as YYYYMMDD.",
        "Zadani dan podnošenja, {date}, nije datum, pa ništa u datoteci nije provjereno. Zadajte ga kao GGGGMMDD."),
    "date_form": (
        "{date} is not a date: a date is eight digits, YYYYMMDD. Write it so.",
        "{date} nije datum: datum je osam znamenki, GGGGMMDD. Upišite ga tako."),
    "date_turned": (
        "{date} is not a date: it looks like DDMMYYYY. Write the year first: {turned}.",
        "{date} nije datum: izgleda kao DDMMGGGG. Upišite godinu na početak: {turned}."),
    "date_year": (
        "{date} is of the year {year}, and the years 2023 to 9999 are accepted. Correct the year.",
        "Godina u datumu {date} je {year}, a prihvaćaju se godine od 2023. do 9999. Ispravite godinu."),
    "date_month": (
        "{date} is not a date: there is no month {month}. Correct the month.",
        "{date} nije datum: nema mjeseca {month}. Ispravite mjesec."),
    "date_day": (
        "{date} is not a date: month {month} of {year} has no day {day}, its last is {last}. Correct the day.",
        "{date} nije datum: mjesec {month} u godini {year} nema dan {day}, zadnji je {last}. Ispravite dan."),
    "other_day": (
        "The file is dated {date}, and the day of submission is {due}. Either date it {due}, or submit it on its date.",
        "Datum u datoteci je {date}, a dan podnošenja {due}. Podnesite datoteku na njezin datum ili upišite {due}."),
    "before": (
        "The orders are to be executed on {date}, before the day of submission, {due}. Write {due} or a later day.",
        "Datum izvršenja je {date}, prije dana podnošenja, {due}. Upišite {due} ili kasniji dan."),
}

#: A hint found: its name, and what its places are filled with.
_Found = Tuple[str, Dict[str, object]]

_KINDS: Dict[Tuple[str, int], str] = {
    ("slip", 2): "currency", ("slip", 3): "amount", ("slip", 10): "iban", ("slip", 11): "model",
    ("slip", 12): "reference",
    ("kuna", 3): "lipa", ("kuna", 10): "iban",
    ("300", 1): "date", ("300", 5): "oib", ("300", 6): "number", ("300", 7): "number", ("300", 8): "oib",
    ("301", 1): "iban", ("301", 2): "currency", ("301", 3): "iban", ("301", 4): "currency", ("301", 5): "number",
    ("301", 6): "amount", ("301", 7): "date",
    ("309", 1): "iban", ("309", 6): "model", ("309", 7): "reference", ("309", 10): "amount", ("309", 11): "model",
    ("309", 12): "reference", ("309", 19): "currency", ("309", 23): "oib",
}

#: The field whose width a text on its own has.
_TEXTS = {"iban": ("slip", 10), "oib": ("300", 5), "reference": ("slip", 12), "model": ("slip", 11)}

_STANDING = [str(number) for number in STANDING]

_LETTERS = "ČčĆćĐđŠšŽž"
_HEADER = b"HRVHUB30"
_KUNA = "HRK"
_PERSONAL_INCOME = "40002"
_NEAREST = 3
_ACCOUNT = FIELDS["kuna", 10]._replace(width=18, at_most=False)
_UTF16 = (BOM_UTF16_LE, BOM_UTF16_BE)
_LOOKALIKES = {"O": "0", "o": "0", "I": "1", "l": "1"}
_CONTINUATION = bytes(range(0x80, 0xC0))
_CROATIAN = re.compile("|".join(_LETTERS).encode())
_YEAR = 2023


class _Content(NamedTuple):
    """What stands in a field or a text: its kind, the field that says its width, a reference's model if it is known."""

    kind: str
    text: str
    field: Optional[Field]
    model: str = ""
    of_wage: bool = False


# ----------------------------------------------------------------------------------------------------------------------
# The calls


def of_slip(data: bytes, refusal: Refusal, language: str) -> List[str]:
    """The hints about a refused slip, in `en` or `hr`; none where nothing is known."""
    return _of_slip(data, refusal, "slip", language)


def of_ledger(data: bytes, refusal: Refusal, language: str) -> List[str]:
    """The hints about a slip of either currency that is refused, in `en` or `hr`; none where nothing is known."""
    return _of_slip(data, refusal, slip_layout(data), language)


def of_sheet(sheet: bytes, refusal: Refusal, language: str) -> List[str]:
    """The hints about a sheet of standing text with a malformed line (20), in `en` or `hr`; none where nothing is known."""
    return _said(_sheet(sheet, refusal), language)


def of_wage(start: bytes, line: bytes, refusal: Refusal, day: int, language: str) -> List[str]:
    """The hints about a refused wage file, in `en` or `hr`.

    `start` is the file's first bytes, up to 2,004; `line` the piece of 1,002 bytes, or the short last one, in which the
    refusal stands, empty if in none; `day` the day of submission, YYYYMMDD.
    """
    return _said(_wage(start, line, refusal, day), language)


def of_text(what: str, text: bytes, refusal: Refusal, language: str, model: bytes = b"") -> List[str]:
    """The hints about a refused text, in `en` or `hr`: an `iban`, `oib`, `reference`, `model` or some `digits`.

    A reference's hints tell what its model asks for, where the model is given.
    """
    place = _TEXTS.get(what)
    content = _Content(what, _utf8(text), FIELDS[place] if place else None, _utf8(model))
    if not text and refusal.number in (1, 4):
        return _said([("empty", {})], language)
    return _said(list(_content(content, refusal.number)) or _plain(content, refusal.number), language)


def slip_layout(data: bytes) -> str:
    """The layout of a slip of either currency: `kuna` where its field 2 is `HRK`, else `slip`."""
    return "kuna" if data.split(b"\n", 2)[1:2] == [_KUNA.encode()] else "slip"


def _said(found: Iterable[_Found], language: str) -> List[str]:
    """The sentences of the first hints, none twice."""
    at = LANGUAGES.index(language)
    first: Dict[str, Dict[str, object]] = {}
    for name, values in found:
        first.setdefault(name, values)
    return [HINTS[name][at].format(**values) for name, values in islice(first.items(), MOST)]


def _utf8(data: bytes) -> str:
    return data.decode("utf-8", "replace")


def _printable(text: str) -> str:
    """A text to be shown in a sentence."""
    return "".join(character if character.isprintable() else "·" for character in text)


def _hex(data: bytes) -> str:
    return " ".join(f"{byte:02X}" for byte in data)


# ----------------------------------------------------------------------------------------------------------------------
# Slips


def _of_slip(data: bytes, refusal: Refusal, layout: str, language: str) -> List[str]:
    found = list(_slip(data, refusal, layout))
    if not found and refusal.number == 3 and ("slip", refusal.field) not in _KINDS:
        found = [("text", {})]
    return _said(found, language)


def _slip(data: bytes, refusal: Refusal, layout: str) -> Iterator[_Found]:
    if not data:
        yield "empty", {}
        return
    if data.startswith(_UTF16):
        yield "utf16", {"mark": _hex(data[:2]), "due": "UTF-8"}
        return
    yield from _slip_front(data)
    yield from _slip_ends(data)
    if refusal.number in (1, 3):
        yield from _slip_letters(data, refusal)
    if refusal.number == 2:
        yield from _slip_feeds(data.rstrip(b"\0"))
    fields = [_utf8(field) for field in data.split(b"\n")]
    if ("slip", refusal.field) in FIELDS and refusal.field <= len(fields):
        yield from _content(_slip_content(fields, refusal.field, layout), refusal.number)


def _slip_content(fields: List[str], number: int, layout: str) -> _Content:
    """What stands in a field of a slip."""
    kind = _KINDS.get((layout, number)) or _KINDS.get(("slip", number), "text")
    text = fields[number - 1]
    if (layout, number) == ("kuna", 10) and re.match("[0-9]", text):
        return _Content("account", text, _ACCOUNT)
    return _Content(kind, text, FIELDS["slip", number], fields[number - 2] if kind == "reference" else "")


def _slip_front(data: bytes) -> Iterator[_Found]:
    """What stands before a slip."""
    if data.startswith(BOM_UTF8):
        yield "slip_mark", {}
        data = data[len(BOM_UTF8):]
    aim = re.match(rb"\]L[0-9]", data)
    before = data.split(b"\n")[0].find(_HEADER)
    if aim:
        yield "aim", {"prefix": aim.group().decode()}
    elif before > 0:
        yield "prefix", {"count": before}
    if data.count(_HEADER) > 1:
        yield "several", {}


def _slip_ends(data: bytes) -> Iterator[_Found]:
    """What ends the fields of a slip, and what stands at its end."""
    # One CR LF behind a slip is what a reader adds, and no end of a field.
    fields = data[:-2] if data.endswith(b"\n\r\n") else data
    if b"\r\n" in fields:
        yield "slip_ends", {"seen": "CR LF"}
    elif _is_ended_by_cr(data):
        yield "slip_ends", {"seen": "CR"}
    if data.endswith(b"\0"):
        yield "nul", {}


def _is_ended_by_cr(data: bytes) -> bool:
    """Whether CR alone stands where LF is missing."""
    return b"\r" in data.replace(b"\r\n", b"") and data.count(b"\n") < 14


def _slip_letters(data: bytes, refusal: Refusal) -> Iterator[_Found]:
    """Letters of a slip that are in another character set, or in UTF-8 twice."""
    for name, letters in (("twice_1250", _TWICE_1250), ("twice", _TWICE)):
        places = sorted((data.find(doubled), letter) for doubled, letter in letters.items() if doubled in data)
        if places:
            yield name, {"letter": places[0][1]}
            return
    letter = _WIN_1250.get(data[refusal.byte:refusal.byte + 1])
    if refusal.number == 3 and letter and not _is_utf8(data):
        yield "win1250", {"position": refusal.byte + 1, "letter": letter}


def _is_utf8(data: bytes) -> bool:
    try:
        data.decode("utf-8")
    except UnicodeDecodeError:
        return False
    return True


def _doubled(codes: Tuple[str, ...]) -> Dict[bytes, str]:
    """Each letter by what its UTF-8 becomes, taken for a one-byte code and encoded as UTF-8 again."""
    letters = {}
    for letter in _LETTERS:
        for code in codes:
            # Bytes that a code leaves open go through as the control characters of latin-1.
            read = (bytes([byte]).decode(code, "ignore") or chr(byte) for byte in letter.encode())
            letters["".join(read).encode()] = letter
    return letters


_TWICE = _doubled(("latin-1", "cp1252"))
_TWICE_1250 = {doubled: letter for doubled, letter in _doubled(("cp1250",)).items() if doubled not in _TWICE}
_WIN_1250 = {letter.encode("cp1250"): letter for letter in _LETTERS}


def _slip_feeds(data: bytes) -> Iterator[_Found]:
    """What is wrong with the number of line feeds, unless CR stands in their place or there are several slips."""
    count = data.count(b"\n")
    last = data.endswith(b"\n")
    if _is_ended_by_cr(data) or data.count(_HEADER) > 1:
        return
    if count == 13 and not last:
        yield "feed_missing", {}
    elif count < 14:
        yield "feeds_few", {"count": count}
    elif count == 14 and not last:
        yield "feed_not_last", {}
    elif count > 14:
        surplus = data.replace(b"\r", b"").endswith(b"\n" * (count - 13))
        yield "feed_doubled" if surplus else "feeds_many", {"count": count}


# ----------------------------------------------------------------------------------------------------------------------
# Sheets

#: What a text of a slip is made of.
_TEXT = re.compile(r"[0-9A-Za-z ,.:+?'/()ČčĆćĐđŠšŽž-]*")


def _sheet(sheet: bytes, refusal: Refusal) -> Iterator[_Found]:
    lines = sheet.split(b"\n")
    if refusal.number != SHEET or not 1 <= refusal.line <= len(lines):
        return
    if sheet.startswith(_UTF16):
        yield "utf16", {"mark": _hex(sheet[:2]), "due": "UTF-8"}
        return
    before, line = lines[:refusal.line - 1], lines[refusal.line - 1]
    is_ended = refusal.line < len(lines)
    if not before and line.startswith(BOM_UTF8):
        yield "sheet_mark", {}
        line = line[len(BOM_UTF8):]
    if b"\r" in line and not (is_ended and line.endswith(b"\r")):
        # more lines than one, for all that can be seen
        yield "sheet_ends", {"seen": "CR"}
        return
    if line.endswith(b"\r"):
        yield "sheet_ends", {"seen": "CR LF"}
        line = line[:-1]
    if not is_ended and line:
        yield "sheet_last", {}
    yield from _sheet_line(before, line, is_ended)


def _sheet_line(before: List[bytes], line: bytes, is_ended: bool) -> Iterator[_Found]:
    """What is wrong with a line of a sheet, without its end, behind other lines."""
    number, equals, text = line.partition(b"=")
    if equals:
        yield from _sheet_number(before, _utf8(number))
        yield from _sheet_text(_utf8(number).strip(" ").lstrip("0"), text)
    elif line:
        yield "sheet_equals", {}
    elif is_ended:
        yield "sheet_empty", {}


def _sheet_number(before: List[bytes], number: str) -> Iterator[_Found]:
    """What is wrong with the number of a line, by itself and behind those of other lines."""
    if not number:
        yield "sheet_bare", {}
    elif not re.fullmatch("[0-9]+", number):
        yield "sheet_number", {"seen": _printable(number)}
    elif number not in _STANDING and number.lstrip("0") in _STANDING:
        yield "sheet_zero", {"number": number.lstrip("0")}
    elif number not in _STANDING:
        yield "sheet_field", {"number": number}
    else:
        numbers = [_utf8(line.partition(b"=")[0]) for line in before]
        if number in numbers:
            yield "sheet_twice", {"number": number, "line": numbers.index(number) + 1}
        elif numbers and numbers[-1] in _STANDING and int(numbers[-1]) > int(number):
            yield "sheet_order", {"number": number, "before": numbers[-1]}


def _sheet_text(number: str, text: bytes) -> Iterator[_Found]:
    """What is wrong with the text of a line, by the rule of its field, if its number is that of one."""
    decoded = _utf8(text)
    if number == "13":
        if not re.fullmatch("([A-Z]{4})?", decoded):
            yield "sheet_purpose", {"seen": _printable(decoded)}
        return
    yield from [("sheet_second", {})] if "=" in decoded else _sheet_characters(text)
    if number in _STANDING and len(decoded) > FIELDS["slip", int(number)].width:
        yield from _length(_Content("text", decoded, FIELDS["slip", int(number)]))


def _sheet_characters(text: bytes) -> Iterator[_Found]:
    """The first character that a slip's text does not have, and those that it has."""
    letters = [letter for letter in (_WIN_1250.get(text[at:at + 1]) for at in range(len(text))) if letter]
    if letters and not _is_utf8(text):
        yield "sheet_1250", {"letter": letters[0]}
        return
    decoded = _utf8(text)
    found = _TEXT.match(decoded)
    at = found.end() if found else 0
    if at < len(decoded):
        is_tab = decoded[at] == "\t"
        yield ("tab", {"at": at + 1}) if is_tab else ("sheet_character", {"at": at + 1, "seen": _printable(decoded[at])})
        yield "text", {}


# ----------------------------------------------------------------------------------------------------------------------
# Wage files


def _wage(start: bytes, line: bytes, refusal: Refusal, day: int) -> Iterator[_Found]:
    if refusal.number == 11 and refusal.line == 0:
        yield "day", {"date": str(day)}
        yield from _not_a_date(str(day))
        return
    if refusal.number == OVERFULL:
        yield "overfull", {}
        return
    if refusal.number == 14:
        yield ("unfinished" if start else "empty"), {}
    if start.startswith(_UTF16):
        yield "utf16", {"mark": _hex(start[:2]), "due": "WIN-1250"}
    elif start.startswith((b"<?xml", BOM_UTF8 + b"<?xml")):
        yield "xml", {}
    elif start.startswith(BOM_UTF8):
        yield "wage_mark", {}
    else:
        yield from _wage_line(start, line, refusal, day)


def _wage_line(start: bytes, line: bytes, refusal: Refusal, day: int) -> Iterator[_Found]:
    """The hints about a line of a file that begins as it should."""
    if refusal.number in (1, 2):
        yield from _wage_ends(start, line, refusal)
    elif refusal.number == 10:
        yield from _wage_order(line, refusal)
    elif len(line) == LINE and not line.strip(b" \r\n"):
        yield "empty_line", {}
    elif refusal.number == 5 and not refusal.field:
        yield "type", {}
    yield from _wage_field(line, refusal, day)


def _wage_ends(start: bytes, line: bytes, refusal: Refusal) -> Iterator[_Found]:
    """What is wrong with a line that is not 1,000 bytes and CR LF."""
    # A line without a line end may be a 399 that was cut off.
    if not line.strip(b" \r\n\x1a") and line.strip(b" "):
        yield ("empty_last" if len(line) < LINE else "empty_line"), {}
        return
    letter = _letter_of_utf8(line)
    if letter:
        yield "utf8", {"letter": letter}
        return
    # The end of a first line that is too long may be seen in the start of the file.
    seen = start if refusal.line == 1 and len(start) > len(line) else line
    end = re.search(rb"\r\n|\n", seen) or re.search(rb"\r", seen)
    if end:
        yield from _wage_end(end.start(), end.group())
    elif len(line) == LINE:
        yield "no_end", {}
    elif len(line) == LINE - 2:
        yield "last_end", {}
    else:
        yield "cut", {"length": len(line)}
    before = _letter_of_utf8(start)
    if before:
        yield "utf8", {"letter": before}


def _wage_end(length: int, end: bytes) -> Iterator[_Found]:
    """What is wrong with a line that ends after so many bytes in CR LF, LF or CR."""
    due = LINE - 2
    if length == 0:
        yield "empty_line", {}
        return
    # A CR that is the last of 1,002 bytes has its LF behind them.
    if end == b"\n" or end == b"\r" and length != LINE - 1:
        yield "wage_ends", {"seen": "LF" if end == b"\n" else "CR"}
    if length < due:
        yield "short", {"length": length, "count": due - length}
    if length > due:
        yield "long", {"length": length, "count": length - due}


def _letter_of_utf8(piece: bytes) -> str:
    """The first letter of several bytes in a piece that is UTF-8, or in part UTF-8; empty if it has none.

    Such letters are those of Latin writing, dashes, quotes and the euro: others may be WIN-1250 by chance, as ĆŠ is. Where
    other parts are not UTF-8, they are those of Croatian: in WIN-1250 their bytes would be Ä or Ĺ and a sign.
    """
    try:
        text = getincrementaldecoder("utf-8")().decode(piece.lstrip(_CONTINUATION))
    except UnicodeDecodeError:
        mixed = _CROATIAN.search(piece)
        return mixed.group().decode() if mixed else ""
    found = re.search("[\u00c0-\u017f\u2010-\u20ac]", text)
    return found.group() if found else ""


def _wage_order(line: bytes, refusal: Refusal) -> Iterator[_Found]:
    """Why a line may not stand where it does."""
    record = _record(line)
    if record == "300" and refusal.line > 1:
        yield "second_label", {"line": refusal.line}
    elif record:
        yield "sequence", {"record": record, "line": refusal.line}


def _record(line: bytes) -> str:
    """The type of a line."""
    return line[LINE - 5:LINE - 2].decode("ascii", "replace")


def _wage_field(line: bytes, refusal: Refusal, day: int) -> Iterator[_Found]:
    """The hints about a field of a line."""
    place = (_record(line), refusal.field)
    field = FIELDS.get(place)
    if field is None:
        return
    letter = _letter_of_utf8(line)
    if refusal.number == 3 and letter and line[refusal.byte:refusal.byte + 1] >= b"\x80":
        yield "utf8", {"letter": letter}
        return
    kind = _KINDS.get(place, "text")
    text = _cut(line, field)
    if kind == "date" and refusal.number == 11:
        yield from _date(text, day, "other_day" if place[0] == "300" else "before")
    if kind in ("iban", "reference"):
        text = text.rstrip(" ")
    model = _cut(line, FIELDS[place[0], field.number - 1]).strip(" ") if kind == "reference" else ""
    if kind == "reference" and not model and refusal.number == 8:
        yield "no_model", {}
        return
    yield from _content(_Content(kind, text, field, model, True), refusal.number)


def _cut(line: bytes, field: Field) -> str:
    """What stands in a field of a line, one character to a byte."""
    return line[field.start - 1:field.start - 1 + field.width].decode("cp1250", "replace")


# ----------------------------------------------------------------------------------------------------------------------
# Days


def _date(text: str, day: int, relation: str) -> Iterator[_Found]:
    """Why a date is refused: it is none, or its relation to the day of submission is wrong."""
    wrong = list(_not_a_date(text))
    yield from wrong
    if not wrong:
        yield relation, {"date": text, "due": day}


def _not_a_date(text: str) -> Iterator[_Found]:
    """Why a text is not a date of the years 2023 to 9999; nothing where it is one."""
    if not re.fullmatch("[0-9]{8}", text):
        yield "date_form", {"date": _printable(text)}
        return
    found = _wrong_part(text)
    if found is None:
        return
    turned = text[4:] + text[2:4] + text[:2]
    yield ("date_turned", {"date": text, "turned": turned}) if _wrong_part(turned) is None else found


def _wrong_part(text: str) -> Optional[_Found]:
    """The first part of eight digits that no date has."""
    year, month, day = int(text[:4]), int(text[4:6]), int(text[6:])
    values: Dict[str, object] = {"date": text, "year": text[:4], "month": text[4:6], "day": text[6:]}
    if year < _YEAR:
        return "date_year", values
    if not 1 <= month <= 12:
        return "date_month", values
    last = calendar.monthrange(year, month)[1]
    return None if 1 <= day <= last else ("date_day", dict(values, last=last))


# ----------------------------------------------------------------------------------------------------------------------
# Contents


def _content(content: _Content, number: int) -> Iterator[_Found]:
    """The hints about what stands in a field or a text."""
    if number in (1, 3, 4, 5):
        yield from _characters(content)
    if number == 3 and content.kind == "date":
        yield "date_form", {"date": _printable(content.text)}
    elif number == 4:
        yield from _length(content)
    elif number == 5:
        yield from _form(content)
    elif number == 6 and content.kind in ("iban", "oib"):
        yield content.kind, {}
    elif number == 7:
        yield "models", {"models": ", ".join(MODELS), "model": _printable(content.text)}
    elif number == 8:
        yield from _parts(content)
    elif number == 9:
        yield "digit", {}
    elif number == 16:
        yield "marks", {"count": content.text.count("?")}


def _plain(content: _Content, number: int) -> Iterator[_Found]:
    """What a typed text is to be, where its characters show nothing."""
    if number == 1:
        yield from _length(content)
    elif number in (3, 5):
        yield ("iban_form" if content.kind == "iban" else "digits"), {}


def _characters(content: _Content) -> Iterator[_Found]:
    """The characters that do not belong into a content of its kind."""
    kind, text = content.kind, content.text
    if "\t" in text:
        yield "tab", {"at": text.index("\t") + 1}
    if kind in ("text", "currency"):
        return
    letters = 2 if kind in ("iban", "model") else 0
    similar = re.compile("[OoIl]").search(text, letters)
    if similar:
        yield "lookalike", {"at": similar.start() + 1, "seen": similar.group(), "meant": _LOOKALIKES[similar.group()]}
    if kind in ("amount", "lipa") and re.search("[.,]", text):
        yield "point" if kind == "amount" else "lipa_point", {}
    if letters and re.search("[a-z]", text[:letters] + re.sub("[ol]", "", text[letters:])):
        yield "lower", {}
    blank = re.search("[ \u00a0]", text)
    if blank:
        numeric = kind in ("amount", "lipa", "number", "date") or kind == "oib" and content.of_wage
        yield "zeros" if numeric else "blank", {"at": blank.start() + 1}
    dash = re.search("[\u2010-\u2015\u2212]", text)
    if dash:
        yield "dash", {"at": dash.start() + 1}


def _length(content: _Content) -> Iterator[_Found]:
    """What is wrong with the length of a content."""
    if content.field is None:
        return
    values: Dict[str, object] = {"length": len(content.text), "width": content.field.width}
    if content.field.at_most:
        yield "too_long", values
    else:
        yield {"amount": "padded", "lipa": "lipa_padded"}.get(content.kind, "fixed"), values


def _form(content: _Content) -> Iterator[_Found]:
    """What is wrong with a content that is not of its form."""
    if content.kind == "currency" and content.text == _KUNA:
        yield "kuna" if content.of_wage else "kuna_slip", {}
    if content.kind == "account":
        yield "account_form", {}
    if content.kind == "model":
        yield "model", {}
    if content.kind == "reference":
        yield from _personal_income(content)
    country = re.match("[A-Z]{2}", content.text)
    if content.kind == "iban" and country and country.group() != "HR":
        yield "foreign", {"country": country.group()}


def _personal_income(content: _Content) -> Iterator[_Found]:
    """What a reference of three parts is to hold under HR69, the only model that asks for contents."""
    found = re.fullmatch("([0-9]{5})-[0-9]{11}-([0-9]{3})", content.text)
    if content.model != "HR69" or found is None:
        return
    first, code = found.groups()
    if first != _PERSONAL_INCOME:
        yield "first_HR69", {"seen": first}
    if code not in CODES:
        yield "code_HR69", {"seen": code}
        near = _near(code)
        if near:
            yield "near_HR69", {"codes": ", ".join(near)}


def _near(seen: str) -> List[str]:
    """The nearest of the codes that three digits become where one of them is changed or two are exchanged."""
    near = []
    for code in CODES:
        changed = sum(digit != other for digit, other in zip(code, seen))
        if changed == 1 or changed == 2 and sorted(code) == sorted(seen):
            near.append(code)
    return sorted(near, key=lambda code: abs(int(code) - int(seen)))[:_NEAREST]


def _parts(content: _Content) -> Iterator[_Found]:
    """What a reference's model asks for."""
    seen = ", ".join(str(len(part)) for part in content.text.split("-"))
    name = "parts_" + content.model
    yield name if name in HINTS else "parts", {"seen": seen}
