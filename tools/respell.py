#!/usr/bin/env python3
"""Spells this repository's own definitions and lemmas as today's Rattle does: words in snake case, types and modules in camel case.

Run it once, at the top, on what the toolchain's port.py has made of the older form. A lemma that would then have its function's
name gets _lem. Functions, fields and constants of src/, exported names, strings, inputs and outputs keep their names."""
import os
import re
import sys

# The words in camel case that are neither a type nor a module, nor a name of the toolchain's library.
WORDS = """
aboveIn abovesIn afterGiven afterNumbers allHold allKnown allRead allTaken andLevel andThen answerIs answerNumbers
anyBelow asMove atTop atZero blockLength bodyCheck bodyIs bookAfter bookCheck bookIs bookLong bookOf bookWords bothEnd
bothGive bothLines byLetter byLetters byMove byNothing byTree byTrees bytesFrom checkAnswer checkOpened checkRule
checkedSays classByte classCount classIn classIs classLength classPlace classRecord classTable classWord closeTaken
closesAre closesStill countBelow countIs countValue deepestOn depthPastStore digitsIn endFed endIs endMarks endOfRun
endRound endSays endedIs endsHeld endsIn endsLevel endsLooked endsWord eventCount eventOf eventsBody eventsHeader
eventsIn eventsKind eventsOf eventsPlace eventsTaken exampleInput exampleOutput fedFirst fedFrom fedIs fedLine
fedNumbers fedOf fedOn feedBy feedCall feedingSays fewCloses fewOpens fileIs fileLength finishCall finishFed firstEven
firstIs fitsR fittedIs foundAnswer freshReading freshRun fromThere frontCheck frontLength frontSays fullEnds fullEvent
fullIs fullLine fullRun fullStep fullTurn fullWord givenCheck goOn goesOn goesTo headerAnswer headerBytes headerLength
heldIs holdIs holdMarks holdSame holdWord inBytes inFront inFull inHold inPlaces inRecord inState inStill inStore
initialIn inputCheck insideIs intoTree isBook isClass isFirst isGiven isGoing isLetters isNot isReading isRule isSeen
isSettled isState isStates itsEvents judgedLine judgedValues knownEvent knownEvents laidDown laidIs largestCeiling
leftBy letterByte letterEnds letterIn letterLength letterMove letterMoves letterRecord letterTable letterTaken lettersIn
levelHeld levelSettled levelsOf levelsPastTaken levelsTaken lineBytes lineEnd lineFrom lineSays lineWith longEnough
lookAnswer lookAt looksIn looksPastTaken looksTaken madeSays makeBook missingAt mostEvents mostLetters mostRounds
mostStates moveIn moveSays movesAre nestedFrom nestedOn newLevel noLevel noMove noMoveNumber noneAbove noneOr noneToo
notAbove notAsked notBefore notFar notHeld notPassedOver notPast notReading nothingAfter numbersAnswer numbersBody
numbersCheck numbersLength numbersOf ofHedge offSchema onFrom onFront onInput onLevel onSettled oneMore oneMove
onlyState openCall openPlace openTaken openedAt openedBook openedReading openedSays openingValues opensAre outcomeSays
outputAfter outsideSettled passNone passOne passSays passedOn passedOver pastTree placeFrom printedFor programBook
programFed programLevels reachMarks reachedIn reachedWord readBack readWith readingAnswer readingCheck readingFrom
readingIs readingValues readsClose readsLetter readsNothing readsOpen recordBytes recordCheck refusalSays refusedThere
refusedWord restOf roomIs roundsUsedUp ruleA ruleB ruleBytes ruleFrom ruleIn ruleMetLater ruleNoStart ruleOf ruleSpare
ruleValues ruleWord runAfter sameCount sameEnd sameLast sameRoom sameTop setIs settledIs settledTurn skipEvent skipFrom
skipIs skipLine skipRun skipStep skipTurn skipWord skippingEnd skippingEnds skipsSettled skipsUnsettled smallBody
smallKind startEnds startMarks startTable stateBit stateIn stateOrNone stateOut statesIn staysSettled stillIs stillMarks
stillSame stillWord storeIs storeStep storedAfter storedStateOut storesOpen tableCheck tableHas tableSays tablesCheck
takenIs takesAll takesLetter textRoom textSays theBook theCases thenCount theseTaken toState topIs treeByte treeEnds
treeHas treeIn treeLength treeMove treeMoves treePlace treeRecord treeStart treeStartIn treeStartMove treeTable turnBy
turnSays verdictSays wasGiven wellNested wentNumbers whenAfter whenMore whenOpened whenRead whenRefused whileWithin
wholeDocument wholeFrom withLevels withLooks withStack writeCheck writtenSays zeroBook
""".split()

# Lemmas whose name is, in snake case, that of the definition they speak of.
LEMMAS = "is_state goes_to no_move any_below above_in ends_held settled_is read_back front_length".split()

# Names that were respelt where they are used and not where they stand.
HALVES = {"◌andThen◌": "◌and_then◌", "getD-inside": "get_or-inside"}


def snake(word):
    return re.sub(r"[A-Z]", lambda m: "_" + m.group().lower(), word)


def respelt(text, proof):
    if proof:
        text = re.sub(rf"(?<![\w'.-])({'|'.join(LEMMAS)})(?![\w'-])", r"\1_lem", text)
    for old, new in HALVES.items():
        text = text.replace(old, new)
    return re.sub(rf"(?<![\w'])({'|'.join(WORDS)})(?![\w'])", lambda m: snake(m.group()), text)


def main():
    for top in sys.argv[1:] or ["crates"]:
        for place, _, files in os.walk(top):
            for name in files:
                path = os.path.join(place, name)
                if not name.endswith((".rt", ".antt")):
                    continue
                with open(path, encoding="utf-8") as file:
                    text = file.read()
                new = respelt(text, "/proofs/" in path)
                if new != text:
                    with open(path, "w", encoding="utf-8") as file:
                        file.write(new)


main()
