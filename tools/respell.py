#!/usr/bin/env python3
"""Brings this repository's own names of definitions and lemmas to the library's spelling: words in snake case, types and modules in camel case.

usage: python3 tools/respell.py [FOLDER]      run once, at the top of the repository, right after the toolchain's port.py

It goes by whole words, in crates/ (sources, definitions, proofs, must-fail edits), README.md and docs/. Functions of src/, exported C names,
strings, inputs and outputs keep their names: none of them is in the table. Where the plain spelling was taken, by a field, a module, a clause's
name or another definition, the table has another word (axial_total_of, not axial_total).
"""
import os
import re
import sys

# The names that the toolchain's script left.
OWN = """
addedBy added_by   addedWall added_wall   allHold all_hold   allowedShare allowed_share   answerBy answer_by   answerOne answer_one
answerOther answer_other   anyBelow any_below   atFront at_front   axialRatio axial_ratio   axialRatioD axial_ratio_d   axialTotal axial_total_of
begunAt begun_at   beyondMost beyond_most   bufferAfter buffer_after   buildingAnswerBy building_answer_by   buildingCount building_count
buildingLine building_line   buildingLineSize building_line_size   buildingRisky building_risky   buildingRiskyIn building_risky_in
byDamage damage_high   byM by_m_test   byShare over_share   bytesBy bytes_by   bytesTold bytes_told   callFault call_fault
caseAnswerBy case_answer_by   caseBy case_by   caseFault case_fault   caseFirst case_first   caseFits case_fits   caseInRange case_in_range
caseLine case_line   caseLineFault case_line_fault   caseLines case_lines   caseNumberFault case_number_fault   caseRanges case_ranges
caseReturned case_returned   caseRisky case_risky   caseRiskyIn case_risky_in   caseSize case_size   caseStart case_start   caseValues case_values
casesAt cases_at   casesBy cases_by   casesFault cases_fault   casesLines cases_lines   casesText cases_text   classListed class_listed
columnA column_a   columnB column_b   columnC column_c   columnClass column_class   columnLater column_later   countFault count_fault
countRange count_range   countsFault counts_fault   cutQuarters cut_quarters   digitsOver digits_over   edgeColumn edge_column
edgeMember edge_member   edgeStorey edge_storey   edgeWall edge_wall   entryExact entry_exact   everyBelow every_below   exactAt exact_at
exceedsShare exceeds_share   faultBy fault_by   faultIn fault_in   faultOf fault_of   fieldFault field_fault   fieldStep field_step
fieldText field_text   fieldsFault fields_fault   fieldsText fields_text   fileAfter file_after_call   fileAnswer file_answer
fileCount file_count   fileFault file_fault   fileFaultBy file_fault_by   fileLengthFault file_length_fault   fileReturned file_returned
fileSize file_size   fileText file_text   filledMembers filled_members   findingBy finding_by   findingIn finding_in   findingValues finding_values
findingsBy findings_by   firstFault first_fault   firstLine first_line   firstMembers first_members   formTold form_told   foundBy found_by
goesOn continues   headFault head_fault   headerBy header_by   headerCallFault header_call_fault   headerFault header_fault
headerHanded header_handed   headerLineFault header_line_fault   headerRanges header_ranges   headerTold header_told   headerValues header_values
holdsFields holds_fields   hoopCap hoop_cap   hoopDown hoop_down   hoopRatio hoop_ratio   hoopScale hoop_scale   hoopsHold hoops_hold
ifRoom if_room   inCase in_case   inCaseOf in_case_of   inCases in_cases   inFour in_four_of   inMap in_map   inOrder in_order
inputAfter input_after   inputMost input_most   isBlank is_blank   isForce is_force   isWall is_wall   judgedBy judged_by   knownForm known_form
lastLine last_line   laterFit later_fit   lengthBy length_by   lengthFault length_fault   lengthTold length_told   levelFault level_fault
levelOf level_of   lifeAt life_at   lineEnd line_end   lineFaults line_faults   lineFirst line_first   lineInRange line_in_range
lineNumber line_number   lineSize line_size   lineStart line_start   lineText line_text   linesFault lines_fault   loadCase load_case
longAt long_at   mDropped m_dropped_of   mLimit m_limit_of   mLimitAt m_limit_at   meetsWallShare meets_wall_share   memberAt member_at
memberAxial member_axial   memberBy member_by   memberCaseFault member_case_fault   memberCaseValues member_case_values   memberCount member_count
memberFault member_fault   memberHanded member_handed   memberIn member_in   memberIn1 member_in1   memberIn2 member_in2   memberIn3 member_in3
memberIn4 member_in4   memberKind member_kind   memberLine member_line   memberLineFault member_line_fault   memberLineSize member_line_size
memberLines member_lines   memberLinesFault member_lines_fault   memberRanges member_ranges   memberReturned member_returned
memberRows member_rows   memberRowsFault member_rows_fault   memberSize member_size   memberStart member_start   memberText member_text
memberValues member_values   membersAfter members_after_call   membersBefore members_before   membersFault members_fault   membersIn members_in
membersMost members_most   membersText members_text   membersTold members_told   metBy met_by   microCap micro_cap   microDown micro_down
microSteps micro_steps   minusOf minus_of   momentRatio moment_ratio   mostShear most_shear   neededColumn needed_column
neededSurvey needed_survey   neededWall needed_wall   noFault no_fault   noMember no_member   noStorey no_storey   noTally no_tally
noVerdict no_verdict   notMet not_met   notedBy noted_by   numberRange number_range   oldCases old_cases   oneDamaged one_damaged
oneOver one_over   oneSecond one_second   optionOf option_of   orderedSet ordered_set   outAfter out_after_call   outputAfter output_after
outputOf output_of   overIn over_in   overM over_m_of   overShear over_shear_of   pastMost past_most   periodTaken period_taken
placeAfter place_after   placeAt place_at   placesRise places_rise   printedNumbers printed_numbers   publishedRules published_rules
publishedShare published_share   putLength put_length   ratioCap ratio_cap   ratioScale ratio_scale   ratioSteps ratio_steps   ratioUp ratio_up
readingCount reading_count   readingReturned reading_returned   recordsFault records_fault   refusalLine refusal_line_of
reportAnswer report_answer   reportCount report_count   reportFault report_fault   reportReturned report_returned
returnedBuilding returned_building   returnedCase returned_case   returnedFile returned_file   returnedReport returned_report
returnedSite returned_site   returnedSpectrum returned_spectrum   returnedStorey returned_storey   riskyAt risky_at   riskyByDamage risky_by_damage
riskyByOneOver risky_by_one_over   riskyByShare risky_by_share   riskyIn risky_in   rotationLimit rotation_limit_of
rotationLimitAt rotation_limit_at   roundM round_m   roundRotation round_rotation   rowB row_b   rowFault row_fault   rowLimit row_limit
secondLine second_line   shearBelow shear_below   shearIfOver shear_if_over   shearMost shear_most   shearOf shear_of   shearRange shear_range
shearsFit shears_fit   sheetLineSize sheet_line_size   sheetMost sheet_most   sheetSize sheet_size   shortPeriod short_period
sidesFault sides_fault   signOver sign_over   siteAnswer site_answer   siteCount site_count   siteFault site_fault   siteOf site_of
siteReturned site_returned   sizedAt sized_at   someOver some_over   someRisky some_risky   spectrumAnswer spectrum_answer   spectrumAt spectrum_at
spectrumCount spectrum_count   spectrumFault spectrum_fault   spectrumOf spectrum_of   spectrumReturned spectrum_returned   stepUp step_up
storeyAnswer storey_answer   storeyAnswerBy storey_answer_by   storeyAt storey_at   storeyBy storey_by   storeyCallFault storey_call_fault
storeyCasesRanges storey_cases_ranges   storeyCount storey_count   storeyFault storey_fault   storeyFinding storey_finding
storeyFindings storey_findings   storeyHanded storey_handed   storeyIn storey_in   storeyIn1 storey_in1   storeyIn2 storey_in2
storeyIn3 storey_in3   storeyIn4 storey_in4   storeyKind storey_kind   storeyLine storey_line   storeyLineFault storey_line_fault
storeyLineSize storey_line_size   storeyLines storey_lines   storeyMembersAt storey_members_at   storeyMet storey_met   storeyMets storey_mets
storeyOf storey_of_rows   storeyRanges storey_ranges   storeyReturned storey_returned   storeyRisky storey_risky   storeyRows storey_rows
storeyRowsFault storey_rows_fault   storeyShear storey_shear   storeyText storey_text   storeyValues storey_values
storeysAfter storeys_after_call   storeysFault storeys_fault   storeysIn storeys_in   storeysLines storeys_lines   storeysMembers storeys_members
storeysText storeys_text   storeysTold storeys_told   surveyFault survey_fault   surveyIn survey_in   surveyOf survey_of   surveyWith survey_with
tL t_l   tagByte tag_byte   takesOne takes_one   thirdLine third_line   tiltAllowed tilt_allowed   toldOf told_of   totalMost total_most
upToTA up_to_ta   upToTB up_to_tb   useListed use_listed   verdictAnswer verdict_answer   verdictOf verdict_of   wallA wall_a   wallB wall_b
wallClass wall_class   wallRows wall_rows   wallShear wall_shear   wallStress wall_stress   wallsFrom walls_from   wallsSuffice walls_suffice_of
weightOf weight_of   withCase with_case   withFinding with_finding   withMember with_member   withinMost within_most   writtenAt written_at
zeroForce zero_force
"""
# The names that it turned, for the files that it does not turn: edits and pages.
TURNED = """
anyOf any_of   caseAt case_at   caseCount case_count   caseOf case_of   classOf class_of   entryOf entry_of   fieldAt field_at   fieldOf field_of
formOf form_of   headerAt header_at   homeOf home_of   inRange in_range   inputOf input_of   isOver is_over   isWritten is_written
linesOf lines_of   membersOf members_of   nextOf next_of   noCase no_case   numberOf number_of   placeIn place_in   putAt put_at   rowAt row_at
rowOf row_of   shareOf share_of   shortAt short_at   tallyOf tally_of   tyAt ty_at   tyOf ty_of   valueAt value_at
"""


def table(text):
    words = text.split()
    return dict(zip(words[::2], words[1::2]))


def main():
    top = sys.argv[1] if len(sys.argv) > 1 else "."
    own, turned = table(OWN), table(TURNED)
    assert len(set(own.values())) == len(own)
    word = re.compile(r"(?<![A-Za-z0-9_])[a-z][A-Za-z0-9]*(?![A-Za-z0-9_])")
    files = []
    for folder, dirs, names in os.walk(os.path.join(top, "crates")):
        dirs[:] = [d for d in dirs if d != "out"]
        files += [os.path.join(folder, f) for f in names if f.endswith((".rt", ".antt", ".edit"))]
    for folder, _, names in os.walk(os.path.join(top, "docs")):
        files += [os.path.join(folder, f) for f in names if f.endswith(".md")]
    files.append(os.path.join(top, "README.md"))
    for path in sorted(files):
        with open(path, encoding="utf-8") as f:
            text = f.read()
        names = own if path.endswith((".rt", ".antt")) else {**own, **turned}
        new = word.sub(lambda m: names.get(m.group(0), m.group(0)), text)
        if new != text:
            with open(path, "w", encoding="utf-8") as f:
                f.write(new)


main()
