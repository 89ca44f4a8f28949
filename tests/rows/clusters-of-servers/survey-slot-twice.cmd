verify --survey survey-slot-twice.survey
