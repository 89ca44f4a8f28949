explain --json --survey survey-slot-twice.survey
